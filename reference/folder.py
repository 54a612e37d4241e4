"""The files of a folder, as the program reads and writes them. In `ph_specs` they are a map from names to bytes [State: Files]."""
import os
import stat

from lines import Refused

FILE_BYTES = 1 << 30


class Folder:
    """The files in a folder, by their names. What fails is answered `error file`. [Refusals: has_file_fault]"""

    def __init__(self, path):
        self.path = path

    def read(self, name):
        """The bytes of a regular file that is not too long. [Refusals: fetch, short_enough, bytes_of]"""
        path = os.path.join(self.path, name)
        try:
            found = os.stat(path)
            if stat.S_ISREG(found.st_mode) and found.st_size <= FILE_BYTES:
                with open(path, 'rb') as file:
                    return file.read()
        except OSError:
            pass
        raise Refused('error file')

    def write(self, name, data):
        """Writes a file under its name with `.part` added, which then gets its name. [Named: enter]"""
        path = os.path.join(self.path, name)
        part = path + '.part'
        if not may_be_replaced(path) or not may_be_replaced(part):
            raise Refused('error file')
        try:
            with open(part, 'wb') as file:
                file.write(data)
            os.replace(part, path)
        except OSError:
            raise Refused('error file') from None


def may_be_replaced(path):
    """Whether a path leads to a regular file and is no link, or to nothing."""
    return not os.path.lexists(path) or stat.S_ISREG(os.lstat(path).st_mode)
