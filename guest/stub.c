/* What programs and libraries are linked against in ldso's place, and never run: guest/cc makes libldso.so of it, with
 * the name ldso.so.1, which ldso answers itself. */
#define STUB(name) \
    void *name(void) { return 0; }
STUB(dlopen)
STUB(dlmopen)
STUB(dlsym)
STUB(dlvsym)
STUB(dlclose)
STUB(dlerror)
STUB(__tls_get_addr)
