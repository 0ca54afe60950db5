/* What caller.c and recorder.c agree on: a file that both have mapped, the caller at HEARD_AT of its own memory. */
#ifndef HEARD_H
#define HEARD_H

#include <stdint.h>

#define HEARD_AT UINT64_C(0x1000000000)

/* The mark: the first word. While it is not 0, every store beyond the mark's page is recorded, as those of the call with that number. */
#define HEARD_MARK_BYTES 4096

/* The image, and room on both sides of it, where a store beside the image is heard too. */
#define HEARD_IMAGE_AT 8192
#define HEARD_IMAGE_MOST 65536
#define HEARD_BYTES (HEARD_IMAGE_AT + HEARD_IMAGE_MOST + 4096)

#endif
