/* Peterson's lock, as examples/lock has it: two processes enter TIMES times each, and add one to a count inside. Each line
   is one step, as each access of the programs is. tools/bench lets SPIN go through its states. */
#ifndef TIMES
#define TIMES 3
#endif

byte wants[2];
byte waits;
int count;
byte ended;

proctype each(byte me) {
    int i = 0, seen;
    do
    :: i < TIMES ->
        wants[me] = 1;
        waits = me;
        do
        :: wants[1 - me] == 0 -> break
        :: wants[1 - me] != 0 ->
            if
            :: waits != me -> break
            :: waits == me
            fi
        od;
        seen = count;
        count = seen + 1;
        wants[me] = 0;
        i++
    :: i == TIMES -> break
    od;
    ended++
}

init {
    atomic {
        run each(0);
        run each(1)
    }
    ended == 2 -> assert(count == 2 * TIMES)
}
