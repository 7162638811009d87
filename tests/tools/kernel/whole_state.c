/* Has the kernel of user-mode-linux keep the processor's extended state of its processes (ptrace(2), NT_X86_XSTATE) where that is
   larger than the room that this kernel was built with, as on processors with AMX. It reads the first part, and the system refuses
   to set that part alone, at which it would stop. Here the part is set over the rest as it stands, which no program under that kernel
   uses. tests/tools/kernel has the kernel load it. */
#define _GNU_SOURCE
#include <dlfcn.h>
#include <elf.h>
#include <stdarg.h>
#include <string.h>
#include <sys/ptrace.h>
#include <sys/types.h>
#include <sys/uio.h>

typedef long tracing(enum __ptrace_request, pid_t, void *, void *);

static _Alignas(64) char whole[1 << 16];

static long state(tracing *trace, enum __ptrace_request request, pid_t process, struct iovec *part) {
    struct iovec all = {whole, sizeof whole};
    long status = trace(PTRACE_GETREGSET, process, (void *)NT_X86_XSTATE, &all);
    if (status < 0)
        return status;
    if (part->iov_len > all.iov_len)
        part->iov_len = all.iov_len;
    if (request == PTRACE_GETREGSET) {
        memcpy(part->iov_base, whole, part->iov_len);
        return status;
    }
    memcpy(whole, part->iov_base, part->iov_len);
    return trace(PTRACE_SETREGSET, process, (void *)NT_X86_XSTATE, &all);
}

long ptrace(enum __ptrace_request request, ...) {
    static tracing *trace;
    if (!trace)
        trace = (tracing *)dlsym(RTLD_NEXT, "ptrace");
    va_list rest;
    va_start(rest, request);
    pid_t process = va_arg(rest, pid_t);
    void *address = va_arg(rest, void *);
    void *data = va_arg(rest, void *);
    va_end(rest);
    if ((request == PTRACE_GETREGSET || request == PTRACE_SETREGSET) && address == (void *)NT_X86_XSTATE)
        return state(trace, request, process, data);
    return trace(request, process, address, data);
}
