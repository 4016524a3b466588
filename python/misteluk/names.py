"""Any text as a name: see `misteluk.values.names`, where it stands."""
from .values.names import MARK as MARK, NameTable as NameTable, id_of as id_of, is_plain as is_plain, shown as shown
