/* How the code that was built for Linux calls and is called: by System V's convention, which gcc and clang know beside
   that of Windows. `build` puts sysv_ before each name that it has or asks for. So it binds to what is defined for it
   alone, and not by chance to a function of Windows' C library, which has the same name and another convention. */
#define SYSV(name) __attribute__((sysv_abi)) sysv_##name
