"""What a run that is checked writes: the solver's output, and on standard error its own lines."""
import os


def say(text: str) -> None:
    write(2, f"fzcheck: {text}\n".encode())


def write(descriptor: int, data: bytes) -> bool:
    """Writes all of the data, or says that nobody takes them."""
    left = memoryview(data)
    try:
        while left:
            left = left[os.write(descriptor, left) :]
    except OSError:
        return False
    return True
