/* The codes, reasons and errors of serf_agent.h as sentences, and the version of the library at run time.
 *
 * Each sentence is in English, begins with a small letter and has no full stop, like those of strerror(3). It belongs to the library:
 * it stays valid, and nobody frees it. For a number that this version doesn't know, the sentence says so. The calls need no handle,
 * allocate no memory, and may be made by any thread.
 *
 * These functions are not proved. tests/library/embed.py tests them.
 */
#ifndef SERF_AGENT_TEXT_H
#define SERF_AGENT_TEXT_H

#include <stdint.h>

#ifdef __cplusplus
extern "C" {
#endif

/* Describes a code (enum serf_agent_code), for example "bytes are pending for the host's file". */
const char *serf_agent_code_text(uint32_t code);

/* Describes why a packet was ignored (enum serf_agent_reason), for example "the same event or query was accepted before". */
const char *serf_agent_reason_text(uint32_t reason);

/* Describes why a packet is not a message (enum serf_agent_error), for example "the packet is empty". */
const char *serf_agent_error_text(uint32_t error);

/* Returns the version of the release with which this library was built, for example "0.2.0". A host that was compiled with the
 * header of one release can run with the shared library of another one, as long as SERF_AGENT_VERSION is the same. */
const char *serf_agent_version(void);

#ifdef __cplusplus
}
#endif

#endif
