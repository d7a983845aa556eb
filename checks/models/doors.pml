/* How the acceptors of sockets, their places and the end of the kernel wait: an acceptor, two places and three connections that come, or with -DDOORS=2 two
   acceptors, each with a place and a connection of its own; one who starts and ends all, and a shutdown that any connection may bring. A peer goes away, or
   stays until it is shut. Where there is one door, one connection is served at once, and another one beside it once its place was relieved of it.

   Claims: no invalid end state: once a shutdown came, every thread comes to its end; and `ends`: it does so in the end, under weak fairness.
   Spoiled: the door tells the places nothing as it is closed; or with -DSPOILED=2 connections of the second place are not shut as all ends. */
#include "waiting.h"

#ifndef DOORS
#define DOORS       1
#endif
#define PLACES      2
#ifndef SPOILED
#define SPOILED     0
#endif
#define CONNECTIONS (5 - 2 * DOORS)
#define DOOR(place) ((place) % DOORS)

byte offered[DOORS], taken[DOORS];                      /* Door::offered, Door::taken */
bool has_next[DOORS], is_door_closed[DOORS];            /* Door::entrance */
byte idle[DOORS];
#if DOORS == 1
byte free = 1;
#define MAY_SERVE   (free > 0)
#define COUNT_IN    free = free - has
#else
#define MAY_SERVE   true        /* a door has one place */
#define COUNT_IN    skip
#endif
byte starting, ending;          /* the places to wait at of the two latches, Latch::setting */
bool has_started, has_ended;    /* what is under their locks, Latch::set */
bool is_ending;                 /* Latch::is_set of the end */
bool is_listening = true;       /* the listener, until Listeners::close */
byte come[DOORS];               /* connections that came */
bool is_served[PLACES];         /* who is in the register of Connections */
bool has_to_end[PLACES];        /* shut by Connections::make_room, or for reading as all ends */
bool is_relieved[PLACES];       /* Register::relieved */
bool is_register_closed;
byte running = PLACES + DOORS;      /* threads to be joined */

inline set_ending() {           /* Latch::set */
    is_ending = true;
    has_ended = true;
    WAKE_ALL(ending)
}

inline close_door(d) {          /* Door::close */
    atomic { is_door_closed[d] = true; has_next[d] = false };
#if SPOILED != 1
    WAKE_ALL(offered[d]);
#endif
    WAKE_ALL(taken[d])
}

inline admit() {                /* Door::admit */
    free++;
    WAKE_ONE(offered[0])
}

proctype Acceptor(byte me; byte d) {
    bool offers, is_awaited;
    AWAIT(has_started, starting, skip);                 /* Latch::wait */
    do
    :: is_ending -> break
    :: !is_ending ->
        if
        :: is_listening && come[d] < CONNECTIONS -> come[d]++         /* acceptor::accept */
        :: !is_listening -> goto again
        fi;
        AWAIT(!has_next[d], taken[d], offers = !is_door_closed[d]; has_next[d] = offers;
            is_awaited = !offers || (idle[d] > 0 && MAY_SERVE));
        if                                              /* Door::offer */
        :: !offers -> skip
        :: offers -> WAKE_ONE(offered[d])
        fi;
        do                                              /* acceptor::see_in */
        :: is_awaited -> break
        :: !is_awaited ->
            if                                          /* acceptor::relieve, or Connections::make_room: of whom that is asked, if one is there */
#if DOORS == 1
            :: atomic { is_served[0] && !is_relieved[0] -> is_relieved[0] = true }; admit()
            :: atomic { is_served[1] && !is_relieved[1] -> is_relieved[1] = true }; admit()
#endif
            :: DOOR(0) == d && is_served[0] -> has_to_end[0] = true
            :: DOOR(1) == d && is_served[1] -> has_to_end[1] = true
            :: skip                                     /* nobody has to, or a place is about to take who waits: Door::is_awaited */
            fi;
            is_awaited = !has_next[d]                   /* Door::wait_until_free: for ten milliseconds at most */
        od;
again:
        skip
    od;
    close_door(d);
    running--
}

proctype Place(byte me) {
    bool has, stays, was_relieved;
    do
    :: true ->
        idle[DOOR(me)]++;                               /* Door::take */
        AWAIT((has_next[DOOR(me)] && MAY_SERVE) || is_door_closed[DOOR(me)], offered[DOOR(me)],
            idle[DOOR(me)]--; has = has_next[DOOR(me)]; has_next[DOOR(me)] = false; COUNT_IN);
        WAKE_ALL(taken[DOOR(me)]);
        if
        :: !has -> break
        :: has -> skip
        fi;
        atomic {                                        /* Connections::enter */
            if
            :: is_register_closed -> has = false
            :: !is_register_closed -> is_served[me] = true; has_to_end[me] = false
            fi
        };
        was_relieved = false;
        if
        :: !has -> skip
        :: has ->
            if                                          /* serve: until the peer goes away, it is shut, or a shutdown was answered */
            :: stays = true
            :: stays = false
            fi;
            if
            :: !stays -> skip
            :: has_to_end[me] -> skip
            fi;
            atomic { is_served[me] = false; was_relieved = is_relieved[me]; is_relieved[me] = false };      /* Connections::leave */
            if
            :: !stays -> set_ending()                   /* attending::attend: Host::was_shut */
            :: skip
            fi;
            stays = false
        fi;
#if DOORS == 1
        if                                              /* attending::attend_to */
        :: was_relieved -> skip
        :: !was_relieved -> admit()
        fi
#endif
    od;
    running--
}

/* start::serve_callers: a shutdown comes in the end, as from a console of its own */
proctype Starter(byte me) {
    has_started = true;                                 /* Latch::set */
    WAKE_ALL(starting);
    AWAIT(has_ended, ending, skip);                     /* warning::tell_until_end: Latch::wait_for, which here never gives up */
    is_listening = false;                               /* start::end_all: Listeners::close, Doors::close, Connections::close */
    close_door(0);
#if DOORS > 1
    close_door(1);
#endif
#if SPOILED == 2
    atomic { is_register_closed = true; has_to_end[0] = true };
#else
    atomic { is_register_closed = true; has_to_end[0] = true; has_to_end[1] = true };
#endif
    running == 0                                        /* thread::scope joins them */
}

proctype Console() {
    set_ending()
}

init {
    atomic {
        run Starter(4); run Place(0); run Place(1); run Acceptor(2, 0);
#if DOORS > 1
        run Acceptor(3, 1);
#endif
        run Console()
    }
}

ltl ends { <> (running == 0) }
