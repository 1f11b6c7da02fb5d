"""Makes files small on which a run meets a fault: takes records away, and puts plain contents into fields, as long as
the fault stays."""

from collections.abc import Callable

from .fields import Field, number_bytes
from .makers import Files
from .model import InputFile, Model

MOST_TRIES = 600
RECORDS_OF_A_TRY = 400
STEPS_OF_A_TRY = 20_000
# records that are taken away one by one, and whose fields are made plain one by one
MOST_SINGLE = 40

# from so many records on greater numbers are tried
LEAST_DENSE = 8

Records = tuple[bytes, ...]
Target = tuple[InputFile, Field]
Test = Callable[[Records], bool]


class Budget:
    """A test that is asked so often at most, and then says no. A try of long files or runs counts as several."""

    def __init__(self, test: Callable[[Files], bool], steps: int):
        self.test = test
        self.cost = 1 + steps // STEPS_OF_A_TRY
        self.left = MOST_TRIES

    def holds(self, files: Files) -> bool:
        self.left -= self.cost + sum(len(records or ()) for records in files.values()) // RECORDS_OF_A_TRY
        return self.left >= 0 and self.test(files)


def shrunk(model: Model, files: Files, aimed: list[Target], budget: Budget) -> Files:
    """Small files, by a test that holds of the ones that are given. Greater numbers in the fields that are aimed at may
    make do with fewer records."""
    for _ in range(2):
        before = files
        for file in model.inputs:
            records = files[file.external]
            if records is None:
                records = () if budget.holds({**files, file.external: ()}) else None
            if records is not None:
                test = in_place_of(budget, files, file)
                fields = [one for owner, one in aimed if owner is file and one.is_number()]
                records = plainer(file, denser(fewer(records, test), fields, test), test)
            files = {**files, file.external: records}
        if files == before:
            break
    return files


def in_place_of(budget: Budget, files: Files, file: InputFile) -> Test:
    return lambda records: budget.holds({**files, file.external: records})


def fewer(records: Records, test: Test) -> Records:
    """Records of which none can be taken away: first behind the last that is needed, then in ever smaller parts."""
    least, most = 0, len(records)
    while least < most:
        middle = (least + most) // 2
        if test(records[:middle]):
            most = middle
        else:
            least = middle + 1
    records = records[:most]
    size = len(records) // 2
    while size and (size > 1 or len(records) <= MOST_SINGLE):
        at = 0
        while at < len(records):
            rest = records[:at] + records[at + size :]
            if test(rest):
                records = rest
            else:
                at += size
        size //= 2
    return records


def denser(records: Records, fields: list[Field], test: Test) -> Records:
    """Fewer records, where greater numbers in these fields of all of them meet the fault before."""
    for one in fields[:4]:
        for part in (1, 2, 4, 10):
            if len(records) < LEAST_DENSE:
                return records
            great = tuple(one.put(record, number_bytes(one.item, one.most() // part)) for record in records)
            if test(great):
                records = fewer(great, test)
                break
    return records


def plainer(file: InputFile, records: Records, test: Test) -> Records:
    """Records with zeros and blanks in fields that don't matter, in all records at once or in one."""
    for number, view in enumerate(file.views):
        for one in view:
            plain = number_bytes(one.item, 0) if one.is_number() else b" " * one.length
            everywhere = tuple(one.put(record, plain) for record in records)
            if everywhere == records:
                continue
            if test(everywhere):
                records = everywhere
            elif number == 0 and len(records) <= MOST_SINGLE:
                for at, record in enumerate(records):
                    changed = one.put(record, plain)
                    if changed != record and test((*records[:at], changed, *records[at + 1 :])):
                        records = (*records[:at], changed, *records[at + 1 :])
    return records
