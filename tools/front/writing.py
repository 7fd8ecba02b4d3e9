"""The modes that write a file: import, export, picture and page."""

from brief import told
from exporting import exported
from files import shown
from importing import imported
from page import page
from picture import picture
from values import ranks
from written import beside, refuse_over


def wrote(wanted, judged):
    """The lines that tell of it, and whose status it has: a verdict's outcome. judged: gives the values of the files, and raises where they have no verdict."""
    if wanted.mode == 'import':
        return imported(wanted), 'clean'
    if wanted.mode == 'export':
        return exported(wanted, judged), 'clean'
    refuse_over(wanted.out, wanted.files)
    found = judged()
    text = (picture if wanted.mode == 'picture' else page)(found, wanted.files)
    with beside(wanted.out) as (file, _):
        file.write(text.encode())
    return [told(own, shown(wanted.files[-1])) for own in ranks(found)], found['outcome']
