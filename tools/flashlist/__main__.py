"""Where ./flashlist goes in: every end has its status, also one that nobody foresaw."""
import os
import signal
import sys

sys.path[0] = os.path.dirname(os.path.dirname(os.path.realpath(__file__)))


def main():
    try:
        from flashlist import frame
        return frame.main(sys.argv[1:])
    except KeyboardInterrupt:
        signal.signal(signal.SIGINT, signal.SIG_IGN)
        words, status = "interrupted", 130
    except Exception as error:
        # status 1 would say that a job was refused
        words, status = f"flashlist: a fault of this command: {type(error).__name__}: {error}", 3
    try:
        os.write(2, f"{words}\n".encode("ascii", "backslashreplace"))
    except OSError:
        pass
    return status


if __name__ == "__main__":
    sys.exit(main())
