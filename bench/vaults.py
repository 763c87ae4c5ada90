"""Vaults of many keys, for the scripts of this folder. Run from the top."""
LENGTH = 331  # of the first key


def vault_of(count):
    """So many keys, each the first of examples/keys.bson under an id and a name of its own: the last four bytes of the
    id and the six of the name count them."""
    with open("examples/keys.bson", "rb") as file:
        key = file.read()[:LENGTH]
    at = key.index(b"_id\0\x10\0\0\0\x04") + 21
    name = key.index(b"hr-key")
    return b"".join(key[:at] + i.to_bytes(4, "big") + key[at + 4:name] + b"%06d" % i + key[name + 6:]
                    for i in range(count))
