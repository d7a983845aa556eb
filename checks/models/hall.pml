/* How threads wait at the hall: two frontends, each of which runs two jobs and asks behind each, the worker, and a shutdown that may come at any time or
   never, with -DCLOSERS=2 from two sides. A frontend that is refused goes away. Each job is of one cell or two, and ends at the begin of one, or after at most
   two slices of it.

   Claims: nobody is left asleep as all others are done (no invalid end state); and `answered`: who waits for the end of a job gets it, whatever thread
   goes on, since the jobs come to an end.
   Spoiled: a post wakes nobody, so that a worker that sleeps is not told of it. */
#include "waiting.h"

#define FRONTENDS 2
#define JOBS      2
#define PLACES    2
#define PLACE(n)  ends[(n) % PLACES]

bool lock;                      /* Hall::state */
byte moved;                     /* Hall::moved */
byte ends[PLACES];              /* Ends::places, of which the hall has 16 */
byte posted, ended;             /* the minutes: posts and ends, both numbered from 1 */
byte settled;                   /* State::settled: of so many jobs all is made that is told */
bool is_open, is_inside, is_closing;    /* the kernel: whether a job is open, and whether it is inside a cell of it */
byte slices, cells;             /* how many more the cell has at most, and the job */
bool waits[FRONTENDS];          /* whose job was posted and whose end was not told yet */

#define IS_IDLE  (!is_open && posted == ended)
#define END_JOB  is_open = false; is_inside = false; ended++; number = ended

proctype Frontend(byte me) {
    byte posts, number;
    do
    :: posts == JOBS -> break
    :: posts < JOBS ->
        LOCK(lock);                                     /* Hall::send: Entrance::enter */
        if
        :: is_closing -> UNLOCK(lock); goto gone        /* State::post: Kernel::post_fault */
        :: !is_closing ->
            atomic { posted++; posts++; number = posted; waits[me] = true };    /* State::queue */
            UNLOCK(lock)
        fi;
#ifndef SPOILED
        WAKE_ALL(moved);                                /* Hall::send: moved.notify_all */
#endif
        LOCK(lock);                                     /* Hall::end_of: the first look */
        if
        :: settled >= number -> UNLOCK(lock)            /* State::done */
        :: settled < number ->
            UNLOCK(lock);                               /* Ends::watch: it may give up at once */
            LOCK(lock);
            do
            :: settled >= number -> break
            :: settled < number -> SLEEP(lock, PLACE(number))     /* Ends::wait */
            od;
            UNLOCK(lock)
        fi;
        waits[me] = false;
        UNDER(lock, assert(posted >= posts))            /* Hall::ask: State::see, which finds all own posts */
    od;
gone:
    skip
}

proctype Worker(byte me) {
    byte number;
    bool is_making;
    do
    :: true ->
        if
        :: is_inside -> skip                            /* worker::work keeps whether it is inside a cell */
        :: !is_inside ->
            UNDER(lock, skip);                          /* Hall::wait_for_work: is_at_rest, and watch */
            LOCK(lock);
            do
            :: !IS_IDLE -> break
            :: IS_IDLE && is_closing -> UNLOCK(lock); goto rested
            :: IS_IDLE && !is_closing ->
                FALL_ASLEEP(lock, moved);
end_of_work:                                            /* it may sleep for ever where nothing is posted */
                WAKE_UP(lock, moved)
            od;
            UNLOCK(lock)
        fi;
        LOCK(lock);                                     /* Hall::turn_on */
        number = 0;
        if
        :: is_inside && slices > 0 -> slices--          /* Kernel::slice goes on */
        :: is_inside && cells > 0 -> atomic { is_inside = false; cells-- }          /* or comes to the border of two cells */
        :: is_inside -> atomic { END_JOB }              /* or ends the job */
        :: !is_inside && is_open -> atomic { is_inside = true; slices = 1 }         /* Kernel::begin enters the next cell */
        :: !is_open && !is_closing -> atomic { is_open = true; is_inside = true; slices = 1; cells = 1 }    /* or the first one */
        :: !is_inside -> atomic { END_JOB }             /* or ends the job at once */
        fi;
        if
        :: number > 0 -> settled = ended                /* State::make, which the turn calls, makes all values */
        :: number > 0 -> is_making = true               /* or the first ones */
        :: number == 0 -> skip
        fi;
        UNLOCK(lock);
        if
        :: is_making -> UNDER(lock, settled = ended);   /* Hall::make_all: Hall::make, with the lock free before, as often as one likes */
            is_making = false
        :: !is_making -> skip
        fi;
        if
        :: number > 0 -> WAKE_ALL(PLACE(number))        /* Ends::wake, with the lock free */
        :: number == 0 -> skip                          /* Hall::give_way: it waits for nobody for ever */
        fi
    od;
rested:
    skip
}

proctype Closer() {
    if
    :: skip                                             /* the kernel goes on */
    :: UNDER(lock, is_closing = true);                  /* Hall::shut */
       WAKE_ALL(moved)
    fi
}

init {
    atomic {
        run Frontend(0); run Frontend(1); run Worker(2); run Closer();
#if CLOSERS > 1
        run Closer()
#endif
    }
}

ltl answered { [] ((waits[0] -> <> !waits[0]) && (waits[1] -> <> !waits[1])) }
