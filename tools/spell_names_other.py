# Read by spell_names.py: names whose plain spelling is taken, and what they are called. A lemma that would have the name of the
# definition that it speaks of ends in _lem.
LEMMAS = """
after-byte cell-place checks-by command-back command-length flat-counted form-fits full-message-bytes if_word in-hour item-fits label-at
labels-of-day message-by name-fits not-mine read-from rule-of same-standing same_way sequence-of seven-before short-again standard-again
string-answer string-left short-name-of sub-id2-bytes up-to-close user-bits-bytes with-count zeros-item is-subframes field_back sub-id1 sub-id2
"""
OTHER = {n: n.replace("-", "_") + "_lem" for n in LEMMAS.split()}
OTHER |= {
    # fields of records, beside a definition of that name
    "as-message": "is_message",
    "hours-byte": "hours_byte_is",
    "minutes-byte": "minutes_byte_is",
    "seconds-byte": "seconds_byte_is",
    "frames-byte": "frames_byte_is",
    "is-sound": "is_sound_record",
    "item-bytes": "are_item_bytes",
    "group-bytes": "are_group_bytes",
    # beside a field or a parameter of the source
    "device-id": "device_in_range",
    "shortName": "short_name_of",
}
# The same name for two things: (crate, name) to its spelling there.
OTHER_IN = {("mmc", "subId1"): "sub_id1_of"}
