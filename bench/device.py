"""What the scripts beside it read of a device by themselves (docs/FORMATS.md, "The device")."""


def generation(path):
    """The greatest generation of the device's segments, one more than were opened."""
    with open(path, "rb") as device:
        image = device.read()
    segments, length = int.from_bytes(image[17:19], "big"), int.from_bytes(image[19:23], "big")
    return max(int.from_bytes(image[place + 1 : place + 9], "big") for place in range(64, 64 + segments * length, length))
