"""The calls of include/simd.h over the reference, written from the scope and
from the change requests: what is past the count of a piece or message is ignored.

Each function takes the same arguments as the one of that name in
tests/product.py and returns the same: the refusal, then the contents after
the call of everything that was lent.
"""

import form_ref
import hmac_ref
import index_ref
import page_ref
import quote_ref
import simd_ref as ref
import tape_ref

SAME, APART, MEET = 0, 1, 2


# Refusals: a number, or 0

def width_refusal(width):
    return 0 if width in ref.WIDTHS else 1


def piece_refusal(data, bits, before=0):
    if bits > 8 * len(data):
        return 2
    return 4 if before + bits > form_ref.BITS_MAX else 0


def key_refusal(key):
    return 4 if 8 * len(key) > form_ref.BITS_MAX else 0


def keyed_refusal(form):
    """The front half as a form, the back half as one, each by its own size, then what a keyed hash may hold."""
    front, back = halves(form)
    refusal = form_ref.refusal(front) or form_ref.refusal(back)
    if refusal:
        return refusal
    (width, length, _, _), (back_width, back_length, _, _) = parts(front), parts(back)
    key_bits = ref.block_bits(width)
    return 0 if width == back_width and length >= key_bits == back_length else 5


# Stored form

def parts(form):
    """Width, bit length, state and last block of a form of either size."""
    width, length, state, block = form_ref.parts(form)
    return width, length, ref.state_from_bytes(width, state), block


def make_form(width, length, state, block):
    return form_ref.made(width, length, ref.state_to_bytes(state), block)


def halves(form):
    """The inner and the outer stored form of a keyed one."""
    return form[:len(form) // 2], form[len(form) // 2:]


def over(new, old):
    """A lent buffer after its first elements were written."""
    return new + old[len(new):]


# Calls

def open(width, form):
    refusal = width_refusal(width) or (6 if len(form) < form_ref.size(width) else 0)
    if refusal:
        return refusal, form
    empty = make_form(width, 0, ref.start_state(width), bytes(ref.block_bytes(width)))
    return 0, over(empty, form)


def feed(form, piece, bits, blocks=0):
    """An old form is too short for the one that a feed leaves."""
    refusal = form_ref.refusal(form)
    if not refusal:
        width, length, state, block = parts(form)
        refusal = piece_refusal(piece, bits, length) or (6 if len(form) < form_ref.size(width) else 0)
    if refusal:
        return refusal, form, blocks
    # The bits of the tail and those of the piece, as one number.
    size = ref.block_bits(width)
    tail = length % size
    joined = int.from_bytes(block, "big") >> (size - tail)
    joined = joined << bits | int.from_bytes(piece, "big") >> (8 * len(piece) - bits)
    full, rest = divmod(tail + bits, size)
    data = (joined << (size - rest)).to_bytes((full + 1) * size // 8, "big")
    for k in range(full):
        state = ref.compress(width, False, state, data[k * size // 8:(k + 1) * size // 8])
    return 0, make_form(width, length + bits, state, data[full * size // 8:]), full


def take(form, out, blocks=0):
    refusal = form_ref.refusal(form)
    if not refusal:
        width, length, state, block = parts(form)
        refusal = 6 if len(out) < width // 8 else 0
    if refusal:
        return refusal, out, blocks
    tail = length % ref.block_bits(width) > 0
    if tail:
        state = ref.compress(width, False, state, block)
    state = ref.compress(width, True, state, ref.length_block(width, length))
    return 0, over(ref.state_to_bytes(state)[:width // 8], out), 2 if tail else 1


def restore(stored, form):
    refusal = form_ref.refusal(stored)
    if not refusal:
        new = form_ref.renewed(stored)
        refusal = 6 if len(form) < len(new) else 0
    return refusal, form if refusal else over(new, form)


def hash(width, message, bits, out):
    refusal = (width_refusal(width) or piece_refusal(message, bits)
               or (6 if len(out) < width // 8 else 0))
    if refusal:
        return refusal, out
    return 0, over(ref.digest(width, message, bits), out)


# A keyed hash is two open ones, made and worked by the calls above.

def fed(form, data):
    """A form fed whole bytes."""
    return feed(form, data, 8 * len(data))[1]


def hmac_open(width, key, form):
    refusal = width_refusal(width) or key_refusal(key)
    if not refusal:
        empty = open(width, bytes(form_ref.size(width)))[1]
        refusal = 6 if len(form) < form_ref.keyed_size(width) else 0
    if refusal:
        return refusal, form
    block = hmac_ref.key_block(ref.block_bytes(width), lambda data, bits: ref.digest(width, data, bits), key)
    return 0, over(b"".join(fed(empty, hmac_ref.padded(block, pad))
                            for pad in (hmac_ref.IPAD, hmac_ref.OPAD)), form)


def hmac_feed(form, piece, bits, blocks=0):
    refusal = keyed_refusal(form)
    if refusal:
        return refusal, form, blocks
    inner, outer = halves(form)
    refusal, inner, blocks = feed(inner, piece, bits, blocks)
    return refusal, inner + outer, blocks


def tag_of(form):
    """(tag, compressions) of a keyed form of either size."""
    inner, outer = map(form_ref.renewed, halves(form))
    size = parts(inner)[0] // 8
    _, digest, first = take(inner, bytes(size))
    _, outer, second = feed(outer, digest, 8 * size)
    _, tag, third = take(outer, bytes(size))
    return tag, first + second + third


def hmac_take(form, tag, blocks=0):
    refusal = keyed_refusal(form)
    if not refusal and len(tag) < parts(halves(form)[0])[0] // 8:
        refusal = 6
    if refusal:
        return refusal, tag, blocks
    found, count = tag_of(form)
    return 0, over(found, tag), count


def hmac_check(form, tag, right=0):
    refusal = keyed_refusal(form)
    return refusal, right if refusal else int(tag_of(form)[0] == tag)


def hmac(width, key, message, bits, tag):
    refusal = width_refusal(width) or key_refusal(key)
    if not refusal:
        refusal = piece_refusal(message, bits, ref.block_bits(width))
    if not refusal and len(tag) < width // 8:
        refusal = 6
    if refusal:
        return refusal, tag
    return 0, over(hmac_ref.tag(width, key, message, bits), tag)


def expand(width, last, block, out):
    refusal = width_refusal(width)
    if not refusal and len(block) != ref.block_bytes(width):
        refusal = 7
    if not refusal and len(out) < 32 * ref.rows(width):
        refusal = 6
    if refusal:
        return refusal, out
    return 0, over(sum(ref.expand(width, last, block), []), out)


def stepping(direction, width, last, state, block, out):
    refusal = width_refusal(width)
    if not refusal and not len(state) == len(block) == ref.block_bytes(width):
        refusal = 7
    if not refusal and len(out) < ref.block_bytes(width):
        refusal = 6
    if refusal:
        return refusal, out
    end = direction(width, last, ref.state_from_bytes(width, state), block)
    return 0, over(ref.state_to_bytes(end), out)


def steps(width, last, state, block, out):
    return stepping(ref.steps, width, last, state, block, out)


def unsteps(width, last, state, block, out):
    return stepping(ref.unsteps, width, last, state, block, out)


def pairs(states, blocks):
    """The pairs of state and block by their number, counted back."""
    return list(zip(states, blocks))[::-1]


def meeting(pairs_a, pairs_b):
    """The smallest number at which the pairs differ."""
    return next(k for k, (p, q) in enumerate(zip(pairs_a, pairs_b)) if p != q)


def verdict_of(same, final_a, final_b, pairs_a, pairs_b):
    """(verdict, number of the block)."""
    if same:
        return SAME, 0
    if final_a != final_b:
        return APART, 0
    return MEET, meeting(pairs_a, pairs_b)


def compare(width, a, a_bits, b, b_bits, verdict=0, block=0):
    refusal = width_refusal(width) or piece_refusal(a, a_bits) or piece_refusal(b, b_bits)
    if refusal:
        return refusal, verdict, block
    same = tape_ref.bit_string(a, a_bits) == tape_ref.bit_string(b, b_bits)
    sides = []
    for data, bits in ((a, a_bits), (b, b_bits)):
        states = ref.states_between(width, data, bits)
        sides.append((states[-1], pairs(states, [x for _, x in ref.all_blocks(width, data, bits)])))
    (final_a, pairs_a), (final_b, pairs_b) = sides
    return (0, *verdict_of(same, final_a, final_b, pairs_a, pairs_b))


def tape(data, out, count=0, place=0):
    digests, refusal, refused_at = tape_ref.run(data, len(out))
    written = b"".join(digest for _, digest in digests)
    return refusal, over(written, out), len(digests), refused_at if refusal else place


def page_entry(number, width, digest, out):
    refusal = width_refusal(width)
    if not refusal and len(digest) != width // 8:
        refusal = 7
    if not refusal and number > page_ref.NUMBER_MAX:
        refusal = 14
    if not refusal:
        lines = page_ref.entry(number, width, digest)
        refusal = 6 if len(out) < len(lines) else 0
    return refusal, out if refusal else over(lines, out)


def quote(width, digest, out):
    refusal = width_refusal(width)
    if not refusal and len(digest) != width // 8:
        refusal = 7
    if not refusal and len(out) < quote_ref.SIZE:
        refusal = 6
    return refusal, out if refusal else over(quote_ref.quote(digest), out)


def quote_check(quote, right=0):
    """Nothing is refused, and the verdict is written whatever it was before."""
    return 0, int(quote_ref.is_right(quote))


def rooms_refusal(width, bits, index, out):
    """That of the two outputs of a run with an index."""
    return 6 if len(index) < index_ref.size(width, bits) or len(out) < width // 8 else 0


def index(width, message, bits, index, out, blocks=0):
    refusal = (width_refusal(width) or piece_refusal(message, bits)
               or rooms_refusal(width, bits, index, out))
    if refusal:
        return refusal, index, out, blocks
    made, digest, count = index_ref.fresh(width, message, bits)
    return 0, over(made, index), over(digest, out), count


def reindex(width, message, bits, old, block, index, out, blocks=0):
    refusal = width_refusal(width) or piece_refusal(message, bits)
    if not refusal and not index_ref.fits(width, bits, old, block):
        refusal = 15
    refusal = refusal or rooms_refusal(width, bits, index, out)
    if refusal:
        return refusal, index, out, blocks
    made, digest, count = index_ref.corrected(width, message, bits, old, block)
    return 0, over(made, index), over(digest, out), count
