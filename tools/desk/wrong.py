"""What is wrong with a file that a person wrote: a line with the file, the key and the reason."""
import os


class Wrong(Exception):
    """One fault or several, a line each."""

    def __init__(self, *lines):
        super().__init__("\n".join(lines))
        self.lines = lines


def line(file, key, reason):
    """One line, whatever the names and texts in it hold."""
    text = f"{file}: {key}: {reason}" if key else f"{file}: {reason}"
    return "".join(letter if letter.isprintable() else "?" for letter in text)


def wrong(file, key, reason):
    return Wrong(line(file, key, reason))


def read_bytes(path):
    try:
        with open(path, "rb") as file:
            return file.read()
    except OSError as error:
        raise wrong(path, "", f"can't be read: {error.strerror}") from None


def read_text(path):
    try:
        return read_bytes(path).decode("utf-8-sig")
    except UnicodeDecodeError as error:
        raise wrong(path, "", f"is no text: byte {error.start} is not UTF-8") from None


def write(path, data):
    """Text or bytes, into folders that are made where they are missing."""
    try:
        os.makedirs(os.path.dirname(path) or ".", exist_ok=True)
        with open(path, "wb") as file:
            file.write(data if isinstance(data, bytes) else data.encode())
    except OSError as error:
        raise wrong(path, "", f"can't be written: {error.strerror}") from None
