/* Part of the shared object alone, which each glibc should load: this one's name is hidden there and says nothing of threads, so that slots
 * are entered by an exchange. Else the object would ask for glibc 2.32. */
char __libc_single_threaded;
