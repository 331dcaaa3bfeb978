/* What a call said, as the examples print it: 0, or the name of an errno. */
#ifndef SAID_H
#define SAID_H

#include <errno.h>

static inline const char *said(int code)
{
    switch (code) {
    case 0: return "0";
    case EBADF: return "EBADF";
    case ENOSR: return "ENOSR";
    case EINVAL: return "EINVAL";
    case ERANGE: return "ERANGE";
    case ENXIO: return "ENXIO";
    case EBADMSG: return "EBADMSG";
    case ENODATA: return "ENODATA";
    case EAGAIN: return "EAGAIN";
    case ETIME: return "ETIME";
    case EIO: return "EIO";
    case EPROTO: return "EPROTO";
    default: return "another errno";
    }
}

#endif
