/* Takes the memory of the stack when the program starts. A session of a program that is made without a
   proof needs some 180 KiB of it, where the system gives 132 at first, and a program whose stack can't
   grow is ended by a signal. With this, memory that is wanting later is a refusal that it tells of. */
__attribute__((constructor)) static void take_stack(void) {
    volatile char room[256 * 1024];
    for (unsigned long at = 0; at < sizeof room; at += 4096)
        room[at] = 0;
}
