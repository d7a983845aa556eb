/* How the halves of two subscribers' connections and a publisher of two broadcasts wait, or with -DPUBLISHERS=2 two of one each. One peer is there from the
   first, the other is ready at some time and may ping once; each goes away, or is shut for reading as the kernel ends. Of a count it is kept whether it has
   risen since its writing half took it: nothing else of it is looked at. It rises without a lock, which is taken only if the writing half sleeps or is about
   to.

   Claims: no invalid end state, and no ping is left at the end; and `heard`: what is published behind the place at which a peer joined is read by its
   writing half, and a ping is answered, or that half has come to its end, whatever thread goes on.
   Spoiled: the writing half takes the count after it has looked, so that what comes in between wakes it no more; or with -DSPOILED=2 it says that it sleeps
   only after it has looked at the count. */
#include "waiting.h"

#ifndef PUBLISHERS
#define PUBLISHERS 1
#endif
#ifndef SPOILED
#define SPOILED    0
#endif
#define BROADCASTS (2 / PUBLISHERS)
#define NOWHERE    99

byte risen[2];                  /* EventCount::risen */
bool gate[2];                   /* EventCount::gate */
bool has_risen[2];              /* whether EventCount::count is another one than was seen */
bool is_awaited[2];             /* EventCount::is_awaited */
bool is_reading[2];             /* Signals::is_reading */
byte board;                     /* how many broadcasts lie on it */
byte joined[2];                 /* Subscriber::joined */
byte pings[2];                  /* Subscriber::pings */
bool is_silent[2];              /* Subscriber::is_silent */
byte at[2];                     /* the place of a writing half */
bool has_spoken[2];

inline raise(whose) {              /* EventCount::raise */
    has_risen[whose] = true;
    if
    :: is_awaited[whose] -> UNDER(gate[whose], skip); WAKE_ALL(risen[whose])
    :: !is_awaited[whose] -> skip
    fi
}

inline wait_past() {            /* EventCount::wait_past */
    LOCK(gate[me]);
#if SPOILED != 2
    is_awaited[me] = true;
#endif
    do
    :: has_risen[me] -> break
    :: !has_risen[me] ->
#if SPOILED == 2
        is_awaited[me] = true;
#endif
        SLEEP(gate[me], risen[me])
    od;
    UNLOCK(gate[me]);
    is_awaited[me] = false
}

proctype Publisher() {
    byte count;
    do
    :: atomic { count < BROADCASTS -> count++; board++ };   /* Bulletin::publish */
        if
        :: count < BROADCASTS -> skip                   /* request::publish_each publishes more first */
        :: true ->                                      /* Bulletin::wake */
            if
            :: is_reading[0] -> raise(0)                /* Signals::wake_reader */
            :: !is_reading[0] -> skip
            fi;
            if
            :: is_reading[1] -> raise(1)
            :: !is_reading[1] -> skip
            fi
        fi
    :: count == BROADCASTS -> break
    od
}

/* The reading half: the peer is ready, may ping once, and goes away, or is shut for reading as the kernel ends. */
proctype Hears(byte who) {
    if
    :: joined[who] == NOWHERE ->
        joined[who] = board;                            /* Subscriber::take: Bulletin::join */
        raise(who);                                     /* half::wake_for */
        if
        :: pings[who]++; raise(who)
        :: skip
        fi
    :: joined[who] != NOWHERE -> skip
    fi;
    is_silent[who] = true;                              /* subscriber::fall_silent */
    raise(who)                                          /* half::hear */
}

proctype Speaks(byte me) {
    byte before, joined_at;
    bool was_silent;
    do
    :: true ->
#if SPOILED != 1
        has_risen[me] = false;                          /* EventCount::seen */
#endif
        atomic { joined_at = joined[me]; was_silent = is_silent[me]; pings[me] = 0 };       /* half::look_and_answer: subscriber::look */
        before = (at[me] != NOWHERE -> at[me] : joined_at);
        if
        :: at[me] == NOWHERE && joined_at != NOWHERE -> is_reading[me] = true       /* half::join: Signals::read_on */
        :: at[me] != NOWHERE || joined_at == NOWHERE -> skip
        fi;
        if
        :: before == NOWHERE -> skip                    /* half::go_on: no place to read from */
        :: before != NOWHERE -> at[me] = board          /* Bulletin::read_from */
        fi;
#if SPOILED == 1
        has_risen[me] = false;
#endif
        if
        :: at[me] == before && was_silent -> break
        :: at[me] == before && !was_silent -> wait_past()
        :: at[me] != before -> skip
        fi
    od;
    atomic { assert(pings[me] == 0); has_spoken[me] = true }
}

init {
    atomic {
        joined[0] = NOWHERE; joined[1] = 0; at[0] = NOWHERE; at[1] = NOWHERE;
        run Publisher();
#if PUBLISHERS > 1
        run Publisher();
#endif
        run Hears(0); run Speaks(0); run Hears(1); run Speaks(1)
    }
}

#define BEHIND(who) (((joined[who] != NOWHERE && at[who] != board) || pings[who] > 0) && !has_spoken[who])
ltl heard { [] ((BEHIND(0) -> <> !BEHIND(0)) && (BEHIND(1) -> <> !BEHIND(1))) }
