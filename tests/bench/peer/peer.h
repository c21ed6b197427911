/* Document 01's five calls, and document 02's run that keeps one domain's log (E8), as
 * include/pirkvezo.h has them, in plain C and unproved, under a prefix of their own: a third
 * implementation beside the library and the Rust reference, to time the library against. The
 * library's header declares them, so the compiler holds the peer to the same interface; it and
 * docs/HOST.md say what each array holds and what each call answers. */
#ifndef PEER_H
#define PEER_H

#define pirkvezo_read_plan peer_read_plan
#define pirkvezo_fresh_start peer_fresh_start
#define pirkvezo_step peer_step
#define pirkvezo_run peer_run
#define pirkvezo_run_kept peer_run_kept
#define pirkvezo_log peer_log

#include "../../../include/pirkvezo.h"

#endif
