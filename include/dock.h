/*
 * The stream of frames at the dock: commands come in frames, in pieces of any size, and responses go out in frames.
 *
 * C99, with an int of more than 16 bits; it compiles as C++11 too. It stands beside element.h and needs nothing of it: a body is any bytes.
 * docs/INTEGRATION.md has a function that receives a piece and answers each command. Its version is that of element.h.
 *
 * On x86-64 link libfirmware.a (`make library`), on other controllers compile port/dock.c. The library takes no memory of its own and keeps nothing
 * between calls. Calls on different buffers may run at the same time. That the functions do what is said here is proved for every input, in
 * crates/remainder, frames and dock (docs/CLAIMS.md).
 *
 * What a caller owes: each pointer is good for the length that follows it, `frame` for a whole dock_frame, for the whole call; nothing
 * else writes what is lent meanwhile; and neither frame and piece nor body and room overlap. piece, body and room may be NULL where their length is
 * 0; frame may not. Everything else is handled: no byte, no length and no value of a stream leads to anything but the answers below.
 *
 * A frame is
 *
 *   at          size         field
 *   0           2            length: of the whole frame, so 6 + the size of its body; 6 to 1,563
 *   2           2            kind: 0001 a command, 0002 a response
 *   4           0 to 1,557   body
 *   length - 2  2            check: of all bytes of the frame before it
 *
 * all least significant byte first. The check is a remainder of 16 bits, bits taken from the least significant on. It starts at 0. Each byte is
 * added to it by exclusive or; then eight times it moves right by one bit, and where a 1 falls out, 8408 hex is added by exclusive or. Nothing is
 * inverted at the end. The check of the nine characters "123456789" is 2189 hex. The command 71 00 00 00 (close) as a frame is
 *
 *   0A 00  01 00  71 00 00 00  06 64
 */
#ifndef DOCK_H
#define DOCK_H

#include <stddef.h>
#include <stdint.h>

#ifdef __cplusplus
extern "C" {
#endif

/* Kinds of frames. */
enum {
    DOCK_COMMAND = 0x0001,
    DOCK_RESPONSE = 0x0002
};

/* Why a stream has stopped. They are looked for in this order, each as soon as its bytes are there. */
enum {
    DOCK_RUNNING = 0,      /* it has not */
    DOCK_BAD_LENGTH = 1,   /* a length under 6 or over 1,563: known at the second byte of a frame */
    DOCK_UNKNOWN_KIND = 2, /* a kind that is neither of the two: known at the fourth byte */
    DOCK_BAD_CHECK = 3     /* a check that is not that of the bytes before it: known at the last byte */
};

/* What the writers return. */
enum {
    DOCK_WRITTEN = 0,
    DOCK_BODY_TOO_LONG = 1, /* the body is over DOCK_LONGEST_BODY bytes; the room is untouched */
    DOCK_ROOM_TOO_SMALL = 2 /* the room is under the size of the body + DOCK_AROUND; it is untouched */
};

/* Sizes, in bytes. */
enum {
    DOCK_HEAD = 4,   /* what stands before the body in a frame */
    DOCK_AROUND = 6, /* what a frame has more than its body */
    DOCK_LONGEST_FRAME = 1563,
    DOCK_LONGEST_BODY = 1557
};

/* The bytes that a host lends, in which a frame is collected. A pointer to an array of another size does not compile. */
typedef uint8_t dock_frame[DOCK_LONGEST_FRAME];

/*
 * Where a stream is. The host keeps it, together with the bytes that it lends as `frame`, in which the frame that is not yet whole is collected;
 * both go from one call to the next as the call left them.
 *
 * Every value has a meaning. stop above 3 counts as 1. With stop not 0 the stream has stopped, and collected is of no account. With collected of
 * 1,563 or more, the next byte stops it with 1 and is not stored. Lent bytes that the host has changed are judged with the next byte, as always; a
 * length below the number of bytes that are then collected is 1 too.
 */
typedef struct dock_stream {
    uint16_t collected; /* the bytes of the frame that is not yet whole; 0 between frames */
    uint16_t stop;      /* DOCK_RUNNING, or why it has stopped */
} dock_stream;

/*
 * What came of a call of dock_feed.
 *
 *   kind not 0            a whole frame, right in all its parts. Its body is `size` lent bytes from DOCK_HEAD on, until the next call with a byte
 *   kind 0, stop 0        not a whole frame yet: no fault, the next piece goes on with it
 *   kind 0, stop 1 to 3   the stream has stopped; it answers this to every piece, until it begins anew by dock_start
 */
typedef struct dock_fed {
    dock_stream stream; /* for the next call */
    uint16_t kind;      /* DOCK_COMMAND, DOCK_RESPONSE; 0 where no frame has become whole */
    uint16_t size;      /* of the body; 0 where no frame has become whole */
    size_t taken;       /* the bytes taken of the piece: all of them, unless a whole frame ended the call; at least one of a piece that has any */
} dock_fed;

/* A stream between frames: collected 0, stop 0. Also the reset of one that has stopped. What stands in the lent bytes is then of no account. */
dock_stream dock_start(void);

/*
 * Takes the bytes of a piece, one after another, up to the end of a frame. A piece is handed over by
 *
 *   while (length > 0) {
 *       dock_fed fed = dock_feed(stream, &frame, piece, length);
 *       stream = fed.stream;
 *       piece += fed.taken;
 *       length -= fed.taken;
 *       if (fed.kind != 0)
 *           receive(fed.kind, frame + DOCK_HEAD, fed.size);
 *   }
 *
 * after which stream.stop tells whether it has stopped. However a stream is cut into pieces, the same bodies come out with their kinds, and the same
 * value is left in the stream and the same bytes in what is lent.
 *
 * A byte goes to the lent bytes at `collected`, and what is then collected is judged. A whole frame ends the call, with collected 0: the rest of
 * the piece is for the next call. A fault sets stop, with collected 0, and the rest of the piece is taken and dropped: the frames before it have
 * come out. A stream that has stopped takes and drops every byte, and leaves the lent bytes as they are. Of these only the bytes that a byte went to
 * change. An empty piece leaves value and lent bytes as they are, but that stop above 3 becomes 1, and collected 0 where the stream has stopped.
 *
 * After a stop nothing says where the next frame begins: both sides agree on a place (a pause, a new connection), and the stream goes on by
 * dock_start.
 */
dock_fed dock_feed(dock_stream stream, dock_frame *frame, const uint8_t *piece, size_t piece_len);

/*
 * Puts the body as a frame of its kind at the front of the room, in body_len + DOCK_AROUND bytes, and returns DOCK_WRITTEN; the rest of the room
 * stays as it was. Or returns DOCK_BODY_TOO_LONG, else DOCK_ROOM_TOO_SMALL, and the room is untouched. What is written is read back by every stream
 * that is between frames: the same kind and the same body, and the stream is between frames again.
 */
uint8_t dock_write_command(const uint8_t *body, size_t body_len, uint8_t *room, size_t room_len);
uint8_t dock_write_response(const uint8_t *body, size_t body_len, uint8_t *room, size_t room_len);

#ifdef __cplusplus
}
#endif

#endif
