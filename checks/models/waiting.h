/* Locks, condition variables and counts, as std has them: to sleep lets the lock go in the same step, who is woken takes the lock again, and a
   wake-up at which nobody sleeps is lost. A condition variable is the set of those who sleep at it, a bit an actor. */
#define LOCK(l)           atomic { !l -> l = true }
#define UNLOCK(l)         l = false
#define FALL_ASLEEP(l, place) atomic { place = place | (1 << me); l = false }
#define WAKE_UP(l, place) atomic { !(place & (1 << me)) && !l -> l = true }
#define SLEEP(l, place)   FALL_ASLEEP(l, place); WAKE_UP(l, place)
/* what is done under a lock at once, with nothing waited for */
#define UNDER(l, what)    atomic { !l -> what }
#define WAKE_ALL(place)   place = 0
/* one of those who sleep, whichever; nobody where nobody does */
#define WAKE_ONE(place) \
    if \
    :: place & 1 -> place = place & ~1 \
    :: place & 2 -> place = place & ~2 \
    :: place & 4 -> place = place & ~4 \
    :: place & 8 -> place = place & ~8 \
    :: !place -> skip \
    fi

/* Waits under a lock at a place until something holds, and does something then. To look, and to fall asleep or to go on, is one step: what is looked at
   changes under the lock alone, and nothing but this is done in between. */
#define AWAIT(until, place, then) \
    do \
    :: atomic { (until) -> then; break } \
    :: atomic { !(until) -> place = place | (1 << me) }; !(place & (1 << me)) \
    od
