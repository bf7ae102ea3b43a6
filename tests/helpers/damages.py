"""What may be wrong with a store's bytes, and what may differ and is not wrong.

A damage changes the image of a sound store, and returns the refusal that has to come, or None where
the store has nothing to be damaged so. `DAMAGES` has them by group, in the order in which an
opening looks: of two damages of different groups, the one of the earlier group decides.

A store may be of either version of the layout. What digests do not cover differs without damage.
"""
import struct

from layout import (
    ACTIVE,
    COUNT,
    DIGEST,
    FIRST_LOG,
    FROZEN,
    GENERATION,
    HASH_DIGESTS,
    HASHES,
    HEADER_LEN,
    HEADER_NUMBERS,
    KEY_LEN,
    LONG_FORM,
    OPEN,
    PUT,
    ROW_HEAD,
    SECTOR,
    SLOT_LEN,
    SLOTS,
    SORTED,
    SORTED_DIGEST,
    VERSION,
    Layout,
)

# The byte of an open commit byte.
OPEN_COMMIT = OPEN[0]

DAMAGES = {
    it: []
    for it in (
        "unknown",
        "header",
        "length",
        "slots",
        "no slot",
        "logs",
        "hashes",
        "sorted",
        "charge",
    )
}
HARMLESS = []


def damage(group):
    def add(function):
        DAMAGES[group].append(function)
        return function

    return add


def harmless(function):
    HARMLESS.append(function)
    return function


def set_number(image, at, number, length=4):
    image[at : at + length] = number.to_bytes(length, "big")


def get_number(image, at, length=4):
    return int.from_bytes(image[at : at + length], "big")


def other_byte(random, *not_these):
    return random.choice([it for it in range(256) if it not in not_these])


def change_byte(image, at, random):
    image[at] ^= random.randint(1, 255)


# ---------------------------------------------------------------- header and length


@damage("unknown")
def header_commit_byte_closed(image, store, random):
    image[0] = random.choice([0, 0xFF, other_byte(random, OPEN_COMMIT)])
    return "refused 1 NotFormatted"


@damage("unknown")
def other_magic(image, store, random):
    image[random.randint(1, 8)] ^= random.randint(1, 255)
    return "refused 1 NotFormatted"


@damage("unknown")
def other_version(image, store, random):
    set_number(image, VERSION, random.choice([3, 9, 0, 256, 257, 258, 1 << 24, 2**32 - 1]))
    return "refused 1 NotFormatted"


@damage("unknown")
def shorter_than_a_header(image, store, random):
    del image[random.choice([0, 1, HEADER_LEN - 1, random.randrange(HEADER_LEN)]) :]
    return "refused 1 NotFormatted"


def number_out_of_limits(name):
    def change(image, store, random):
        bad = {
            "v": [0, 4097, 2**32 - 1],
            "b": [0, 1, 3, 6, 32767, 65536, 2**31, 2**32 - 1],
            "cap": [0, store.geometry.slots + 1, 2**32 - 1],
            "nl": [0, 1, 9, 2**32 - 1],
            "nh": [0, 17, 2**32 - 1],
            "s": [0, 16_777_217, 2**32 - 1],
        }
        set_number(image, HEADER_NUMBERS[name], random.choice(bad[name]))
        return "refused 3 Damaged header"

    change.__name__ = f"header_{name}_out_of_limits"
    return change


for one_name in HEADER_NUMBERS:
    damage("header")(number_out_of_limits(one_name))


@damage("length")
def one_byte_short(image, store, random):
    del image[-1]
    return "refused 3 Damaged length"


@damage("length")
def one_byte_long(image, store, random):
    image.append(random.randrange(256))
    return "refused 3 Damaged length"


@damage("length")
def header_alone(image, store, random):
    del image[random.choice([HEADER_LEN, HEADER_LEN + 1, SLOTS[0], SLOTS[0] + 1, FIRST_LOG]) :]
    return "refused 3 Damaged length"


@damage("length")
def length_of_more_regions(image, store, random):
    name, most = random.choice([("nl", 8), ("nh", 16)])
    set_number(image, HEADER_NUMBERS[name], random.randint(getattr(store.geometry, name) + 1, most))
    return "refused 3 Damaged length"


# ---------------------------------------------------------------- manifest slots


def current_slot(store):
    return store.generation % 2


def current_at(store):
    return SLOTS[current_slot(store)]


def is_long(image, slot_at):
    return image[slot_at + GENERATION] & LONG_FORM != 0


def open_slots(store):
    """The offsets of the open slots."""
    return [SLOTS[slot] for slot in (0, 1) if store.slots_open[slot]]


def open_slot(image, store, slot):
    """Opens a slot, by a body that is well formed if it is closed, and returns its offset."""
    at = SLOTS[slot]
    current = current_at(store)
    if image[at] != OPEN_COMMIT and at != current:
        image[at : at + SLOT_LEN] = image[current : current + SLOT_LEN]
        form = image[at + GENERATION] & LONG_FORM
        set_number(image, at + GENERATION, abs(store.generation - 1), 8)
        image[at + GENERATION] |= form
    image[at] = OPEN_COMMIT
    return at


def bad_slot(name, edit):
    """A damage of either slot. `edit` sets fields of the slot at an offset, or returns False."""

    def change(image, store, random):
        slot = random.randrange(2)
        at = open_slot(image, store, slot)
        if edit(image, at, store.geometry, random) is False:
            return None
        return f"refused 3 Damaged slot {slot}"

    change.__name__ = f"slot_with_{name}"
    damage("slots")(change)


def set_ids(image, at, ids):
    set_number(image, at, len(ids))
    for i, one in enumerate(ids):
        set_number(image, at + 4 + 4 * i, one)


def repeated_frozen_log(image, at, geometry, random):
    if geometry.nl < 3:
        return False
    one = next(it for it in range(geometry.nl) if it != get_number(image, at + ACTIVE))
    set_ids(image, at + FROZEN, [one, one])
    return True


def repeated_hash_store(image, at, geometry, random):
    if geometry.nh < 2:
        return False
    set_ids(image, at + HASHES, [1, 1])
    return True


def no_digests(image, at, geometry, random):
    """A slot without digests is damage on a device of version 2 alone."""
    if get_number(image, VERSION) == 1:
        return False
    image[at + GENERATION] &= ~LONG_FORM
    return True


bad_slot("no_digests", no_digests)
bad_slot(
    "the_other_slot's_generation",
    lambda image, at, g, random: image.__setitem__(at + 8, image[at + 8] ^ 1),
)
bad_slot(
    "an_active_log_too_many",
    lambda image, at, g, random: set_number(
        image, at + ACTIVE, random.choice([g.nl, 8, 256, 2**32 - 1])
    ),
)
bad_slot(
    "too_many_frozen_logs",
    lambda image, at, g, random: set_number(
        image, at + FROZEN, random.choice([g.nl, 8, 256, 2**32 - 1])
    ),
)
bad_slot("a_frozen_log_too_many", lambda image, at, g, random: set_ids(image, at + FROZEN, [g.nl]))
bad_slot(
    "its_active_log_frozen",
    lambda image, at, g, random: set_ids(image, at + FROZEN, [get_number(image, at + ACTIVE)]),
)
bad_slot("a_log_frozen_twice", repeated_frozen_log)
bad_slot(
    "too_many_hash_stores",
    lambda image, at, g, random: set_number(
        image, at + HASHES, random.choice([g.nh + 1, 17, 256, 2**32 - 1])
    ),
)
bad_slot("a_hash_store_too_many", lambda image, at, g, random: set_ids(image, at + HASHES, [g.nh]))
bad_slot("a_hash_store_twice", repeated_hash_store)
bad_slot(
    "a_third_sorted_region",
    lambda image, at, g, random: set_number(image, at + SORTED, random.choice([2, 256, 2**32 - 1])),
)
bad_slot(
    "too_many_entries",
    lambda image, at, g, random: set_number(
        image, at + COUNT, random.choice([g.s + 1, 2**24 + 1, 2**32 - 1])
    ),
)


@damage("slots")
def short_slots_of_a_new_device(image, store, random):
    """The header of an old device says version 2."""
    short = [at for at in open_slots(store) if image[at] == OPEN_COMMIT and not is_long(image, at)]
    if not short:
        return None
    set_number(image, VERSION, 2)
    return f"refused 3 Damaged slot {(min(short) - SLOTS[0]) // SECTOR}"


@damage("no slot")
def both_slots_closed(image, store, random):
    for slot in (0, 1):
        image[SLOTS[slot]] = other_byte(random, OPEN_COMMIT)
    return "refused 3 Damaged no slot"


# ---------------------------------------------------------------- logs


def row_place(store, log, row):
    return store.geometry.rows_at(log.region) + row * store.geometry.row_length


def write_rows(image, store, log, rows):
    """Writes rows (kind, key, value) from the first one on, and opens their commit bytes."""
    for i, (kind, key, value) in enumerate(rows):
        at = row_place(store, log, i)
        image[at : at + store.geometry.row_length] = bytes([kind]) + key + value
        image[store.geometry.commits_at(log.region) + i] = OPEN_COMMIT


@damage("logs")
def row_of_no_kind(image, store, random):
    log = random.choice([it for it in (store.active, *store.frozen) if it.rows] or [None])
    if log is None:
        return None
    row = random.randrange(len(log.rows))
    image[row_place(store, log, row)] = random.choice(
        [0, 3, OPEN_COMMIT, 0xFF, other_byte(random, 1, 2)]
    )
    return f"refused 3 Damaged log {log.region} row {row}"


@damage("logs")
def commit_byte_open_over_no_row(image, store, random):
    log = store.active
    row = len(log.rows)
    if row == store.geometry.cap:
        return None
    image[store.geometry.commits_at(log.region) + row] = OPEN_COMMIT
    image[row_place(store, log, row)] = random.choice([0, 3, 0xFF])
    return f"refused 3 Damaged log {log.region} row {row}"


@damage("logs")
def crowded(image, store, random):
    """More keys with the same buckets than their slots: five of one bucket, or nine of two."""
    log = random.choice([store.active, *store.frozen])
    pair = random.choice([(0, 0), (1, 1), (0, 1), (1, 0)])
    count = 5 if pair[0] == pair[1] else 9
    if store.geometry.cap < count:
        return None
    keys = [struct.pack(">HHB15x", *pair, i) for i in range(count)]
    write_rows(
        image, store, log, [(random.choice([1, 2]), key, bytes(store.geometry.v)) for key in keys]
    )
    return "refused 4 Crowded"


# ---------------------------------------------------------------- hash stores


def pick_row(store, random):
    """A hash store and the number of one of its rows, or None."""
    found = [(it, i) for it in store.hashes for i, row in enumerate(it.slots) if row]
    return random.choice(found) if found else None


def slot_place(store, one, slot):
    return store.geometry.hash_at(one.region) + slot * store.geometry.row_length


def copy_slot(image, store, one, source, target):
    length = store.geometry.row_length
    at = slot_place(store, one, source)
    to = slot_place(store, one, target)
    image[to : to + length] = image[at : at + length]


@damage("hashes")
def slot_of_no_kind(image, store, random):
    if not store.hashes:
        return None
    one = random.choice(store.hashes)
    slot = random.randrange(store.geometry.slots)
    image[slot_place(store, one, slot)] = random.choice(
        [3, OPEN_COMMIT, 0xFF, random.randint(3, 255)]
    )
    return f"refused 3 Damaged hash {one.region} slot {slot}"


def other_slots(store, one, source, inside):
    """The other slots in the buckets of a row's key, or those outside them."""
    own = store.geometry.buckets(one.slots[source][1])
    slots = range(store.geometry.slots)
    return [it for it in slots if (it // 4 in own) == inside and it != source]


@damage("hashes")
def row_outside_its_buckets(image, store, random):
    picked = pick_row(store, random)
    if not picked:
        return None
    one, source = picked
    others = other_slots(store, one, source, inside=False)
    if not others:
        return None
    target = random.choice(others)
    copy_slot(image, store, one, source, target)
    return f"refused 3 Damaged hash {one.region} slot {target}"


@damage("hashes")
def key_in_two_slots(image, store, random):
    picked = pick_row(store, random)
    if not picked:
        return None
    one, source = picked
    target = random.choice(other_slots(store, one, source, inside=True))
    copy_slot(image, store, one, source, target)
    return f"refused 3 Damaged hash {one.region} slot {max(source, target)}"


def said(store, one):
    """The refusal of a hash store that has another digest than the manifest says. One without
    digests says nothing."""
    return f"refused 3 Damaged hash {one.region} digest" if store.layout == 2 else None


@damage("hashes")
def other_value_of_a_hashed_row(image, store, random):
    picked = pick_row(store, random)
    if not picked:
        return None
    one, slot = picked
    change_byte(
        image,
        slot_place(store, one, slot) + random.randrange(ROW_HEAD, store.geometry.row_length),
        random,
    )
    return said(store, one)


@damage("hashes")
def other_key_of_a_hashed_row(image, store, random):
    """A key of the same buckets, that no other row has."""
    picked = pick_row(store, random)
    if not picked:
        return None
    one, slot = picked
    change_byte(image, slot_place(store, one, slot) + 1 + random.randrange(4, KEY_LEN), random)
    return said(store, one)


@damage("hashes")
def put_for_a_delete_and_back(image, store, random):
    """In a store without digests the charge is another one. It may then be too great, so such a
    store stays as it is."""
    picked = pick_row(store, random)
    if not picked or store.layout == 1:
        return None
    one, slot = picked
    image[slot_place(store, one, slot)] ^= 3
    return said(store, one)


@damage("hashes")
def noise_behind_the_kind_of_an_empty_slot(image, store, random):
    found = [(one, slot) for one in store.hashes for slot, row in enumerate(one.slots) if not row]
    if not found:
        return None
    one, slot = random.choice(found)
    change_byte(
        image, slot_place(store, one, slot) + random.randrange(1, store.geometry.row_length), random
    )
    return said(store, one)


def hash_digest_at(store, place):
    """Where the current slot has the digest of the hash store at this place, the newest at 0."""
    return current_at(store) + HASH_DIGESTS + DIGEST * place


@damage("hashes")
def other_digest_of_a_hash_store(image, store, random):
    if not store.hashes or store.layout == 1:
        return None
    place = random.randrange(len(store.hashes))
    change_byte(image, hash_digest_at(store, place) + random.randrange(DIGEST), random)
    return said(store, store.hashes[place])


@damage("hashes")
def digests_of_hash_stores_swapped(image, store, random):
    if len(store.hashes) < 2 or store.layout == 1:
        return None
    places = random.sample(range(len(store.hashes)), 2)
    first, second = (hash_digest_at(store, it) for it in places)
    image[first : first + DIGEST], image[second : second + DIGEST] = (
        image[second : second + DIGEST], image[first : first + DIGEST]
    )
    return said(store, store.hashes[min(places)])


@damage("hashes")
def other_digests_of_all_hash_stores(image, store, random):
    """The newest one decides, whatever is wrong with the slots of the others."""
    if len(store.hashes) < 2 or store.layout == 1:
        return None
    for place in range(len(store.hashes)):
        change_byte(image, hash_digest_at(store, place), random)
    image[slot_place(store, store.hashes[1], 0)] = 3
    return said(store, store.hashes[0])


@damage("hashes")
def bad_slot_and_other_digest(image, store, random):
    """Of one hash store its slots are looked at first."""
    if not store.hashes or store.layout == 1:
        return None
    place = random.randrange(len(store.hashes))
    slot = random.randrange(store.geometry.slots)
    one = store.hashes[place]
    change_byte(image, hash_digest_at(store, place), random)
    image[slot_place(store, one, slot)] = 3
    return f"refused 3 Damaged hash {one.region} slot {slot}"


def say_digests(image, store, hashes, entries):
    """Writes digests behind the body of the current slot, and that they are there."""
    at = current_at(store)
    image[at + GENERATION] |= LONG_FORM
    image[at + HASH_DIGESTS : at + SLOT_LEN] = b"".join(hashes).ljust(16 * DIGEST, b"\0") + entries


@damage("hashes")
def zeros_for_digests(image, store, random):
    """The current slot of an old device says that there are digests, and has zeros there."""
    if not store.hashes or store.layout == 2:
        return None
    say_digests(image, store, [], bytes(DIGEST))
    return f"refused 3 Damaged hash {store.hashes[0].region} digest"


# ---------------------------------------------------------------- sorted entries and charge


def entry_place(store, entry):
    return store.geometry.sorted_at(store.sorted.region) + entry * store.geometry.entry_length


def pick_neighbours(store, random):
    """The number of an entry, and the places of the one before it and of itself, or None."""
    if len(store.sorted.entries) < 2:
        return None
    entry = random.randrange(1, len(store.sorted.entries))
    return entry, entry_place(store, entry - 1), entry_place(store, entry)


@damage("sorted")
def equal_entries(image, store, random):
    picked = pick_neighbours(store, random)
    if not picked:
        return None
    entry, at, to = picked
    image[to : to + KEY_LEN] = image[at : at + KEY_LEN]
    return f"refused 3 Damaged sorted {entry}"


@damage("sorted")
def falling_entries(image, store, random):
    picked = pick_neighbours(store, random)
    if not picked:
        return None
    entry, at, to = picked
    lower = image[at : at + KEY_LEN]
    upper = image[to : to + KEY_LEN]
    image[at : at + KEY_LEN] = upper
    image[to : to + KEY_LEN] = lower
    return f"refused 3 Damaged sorted {entry}"


@damage("sorted")
def entry_above_all_others(image, store, random):
    if len(store.sorted.entries) < 2:
        return None
    entry = random.randrange(len(store.sorted.entries) - 1)
    at = entry_place(store, entry)
    image[at : at + KEY_LEN] = b"\xff" * KEY_LEN
    return f"refused 3 Damaged sorted {entry + 1}"


@damage("sorted")
def other_value_of_an_entry(image, store, random):
    if not store.sorted.entries:
        return None
    at = entry_place(store, random.randrange(len(store.sorted.entries)))
    change_byte(image, at + random.randrange(KEY_LEN, store.geometry.entry_length), random)
    return "refused 3 Damaged sorted digest" if store.layout == 2 else None


@damage("sorted")
def other_digest_of_the_entries(image, store, random):
    if store.layout == 1:
        return None
    change_byte(image, current_at(store) + SORTED_DIGEST + random.randrange(DIGEST), random)
    return "refused 3 Damaged sorted digest"


@damage("sorted")
def equal_entries_and_other_digest(image, store, random):
    """The entries are looked at first."""
    refusal = equal_entries(image, store, random)
    if refusal and store.layout == 2:
        change_byte(image, current_at(store) + SORTED_DIGEST, random)
    return refusal


@damage("sorted")
def zeros_for_the_digest_of_the_entries(image, store, random):
    """The current slot of an old device has the digests of the hash stores alone."""
    if store.layout == 2:
        return None
    say_digests(image, store, [it.digest for it in store.hashes], bytes(DIGEST))
    return "refused 3 Damaged sorted digest"


@damage("charge")
def charge_above_its_limit(image, store, random):
    """A lower S in the header, for which the device is as long, and no slot has more entries."""
    geometry = store.geometry
    counts = [get_number(image, SLOTS[slot] + COUNT) for slot in (0, 1) if store.slots_open[slot]]
    low = max(1, *counts, len(store.sorted.entries))
    fits = [
        s
        for s in range(low, store.charge())
        if Layout(*geometry.numbers[:5], s).size == geometry.size
    ]
    if not fits:
        return None
    set_number(image, HEADER_NUMBERS["s"], random.choice(fits))
    return "refused 3 Damaged charge"


# ---------------------------------------------------------------- what is not looked at


def set_noise(image, at, end, random):
    image[at:end] = random.randbytes(end - at)


@harmless
def noise_behind_the_header(image, store, random):
    set_noise(image, HEADER_LEN, SECTOR, random)


@harmless
def noise_behind_the_bodies(image, store, random):
    """Behind a body without digests, and behind the digests of one that has them."""
    for slot in (0, 1):
        at = SLOTS[slot]
        end = SLOT_LEN if is_long(image, at) else HASH_DIGESTS
        set_noise(image, at + end, at + SECTOR, random)


@harmless
def noise_past_the_digests(image, store, random):
    """In the places of hash stores that the manifest does not name."""
    for at in open_slots(store):
        if is_long(image, at):
            set_noise(
                image,
                at + HASH_DIGESTS + DIGEST * get_number(image, at + HASHES),
                at + SORTED_DIGEST,
                random,
            )


@harmless
def noise_in_the_digests_of_the_other_slot(image, store, random):
    other = SLOTS[1 - current_slot(store)]
    set_noise(image, other + HASH_DIGESTS, other + SECTOR, random)


@harmless
def digests_that_somebody_else_wrote(image, store, random):
    """They count wherever they are, if they are right."""
    say_digests(image, store, [it.digest for it in store.hashes], store.sorted.digest)


@harmless
def version_1_over_digests(image, store, random):
    """On a device of version 1 a slot may have digests."""
    set_number(image, VERSION, 1)


@harmless
def noise_in_unused_places_of_a_body(image, store, random):
    for slot in (0, 1):
        for at, places in ((FROZEN, 7), (HASHES, 16)):
            at += SLOTS[slot]
            if (used := get_number(image, at)) <= places:
                set_noise(image, at + 4 + 4 * used, at + 4 + 4 * places, random)


@harmless
def noise_in_a_closed_slot(image, store, random):
    other = SLOTS[1 - current_slot(store)]
    set_noise(image, other, other + SECTOR, random)
    image[other] = other_byte(random, OPEN_COMMIT)


@harmless
def noise_in_closed_commit_bytes_and_behind_them(image, store, random):
    geometry = store.geometry
    log = store.active
    for row in range(len(log.rows), geometry.cap):
        image[geometry.commits_at(log.region) + row] = other_byte(random, OPEN_COMMIT)
        set_noise(image, row_place(store, log, row), row_place(store, log, row + 1), random)


@harmless
def open_commit_bytes_past_a_closed_one(image, store, random):
    geometry = store.geometry
    log = store.active
    for row in range(len(log.rows) + 1, geometry.cap):
        image[geometry.commits_at(log.region) + row] = random.choice([OPEN_COMMIT, other_byte(random)])
        set_noise(image, row_place(store, log, row), row_place(store, log, row + 1), random)


@harmless
def commit_byte_closed_among_the_rows(image, store, random):
    log = random.choice([store.active, *store.frozen])
    row = random.randrange(store.geometry.cap)
    image[store.geometry.commits_at(log.region) + row] = other_byte(random, OPEN_COMMIT)


@harmless
def other_values(image, store, random):
    for log in (store.active, *store.frozen):
        for i, row in enumerate(log.rows):
            if row[0] == PUT:
                set_noise(
                    image, row_place(store, log, i) + ROW_HEAD, row_place(store, log, i + 1), random
                )


@harmless
def noise_where_no_digest_is_said(image, store, random):
    """In a store without digests: the values of hashed rows and entries, and what empty slots have
    behind their kind."""
    if store.layout == 2:
        return
    for one in store.hashes:
        for slot, row in enumerate(one.slots):
            set_noise(
                image,
                slot_place(store, one, slot) + (ROW_HEAD if row else 1),
                slot_place(store, one, slot + 1),
                random,
            )
    for entry in range(len(store.sorted.entries)):
        set_noise(image, entry_place(store, entry) + KEY_LEN, entry_place(store, entry + 1), random)


@harmless
def noise_behind_the_slots(image, store, random):
    for one in store.hashes:
        set_noise(
            image,
            slot_place(store, one, store.geometry.slots),
            store.geometry.hash_at(one.region + 1),
            random,
        )


@harmless
def noise_in_regions_that_are_not_named(image, store, random):
    geometry = store.geometry
    logs = {it.region for it in (store.active, *store.frozen)}
    hashes = {it.region for it in store.hashes}
    ends = [
        (geometry.commits_at(it), geometry.commits_at(it + 1))
        for it in range(geometry.nl) if it not in logs
    ]
    ends += [
        (geometry.hash_at(it), geometry.hash_at(it + 1))
        for it in range(geometry.nh) if it not in hashes
    ]
    other = 1 - store.sorted.region
    ends += [(geometry.sorted_at(other), geometry.sorted_at(other + 1))]
    ends += [
        (entry_place(store, len(store.sorted.entries)), geometry.sorted_at(store.sorted.region + 1))
    ]
    for at, end in ends:
        set_noise(image, at, end, random)
