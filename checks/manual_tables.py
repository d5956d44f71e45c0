"""What the manual page has of tables in docs/, in the words of roff."""
import re

from sources import TOP


def roff(text: str) -> str:
    """A text as roff has it: a backslash, a hyphen, and a dot or quote at the front of a line have a meaning there."""
    text = text.replace('\\', '\\e').replace('-', '\\-')
    return '\\&' + text if text[:1] in ('.', "'") else text


def statuses() -> list[str]:
    """The exit statuses, as docs/COMMANDS.md has them."""
    page = ['.SH EXIT STATUS']
    for status, text in re.findall(r'^\| (\d) \| (.*) \|$', (TOP / 'docs/COMMANDS.md').read_text(), re.M):
        page += ['.TP', f'\\fB{status}\\fR', roff(text.replace('`', '') + '.')]
    return page


def diagnostics() -> list[str]:
    """What messages mean and what to do, as docs/FORMATS.md has it."""
    text = (TOP / 'docs/FORMATS.md').read_text()
    table = text[text.index('| Message | What it means |'):].split('\n\n')[0].splitlines()[2:]
    page = ['.SH DIAGNOSTICS']
    for row in table:
        cells = row[2:-2].split(' | ')
        message, meaning, advice = (re.sub(r'\[(.*?)\]\(.*?\)', r'docs/\1', it).replace('`', '').replace('\\|', '|') for it in cells)
        page += ['.TP', f'\\fB{roff(message)}\\fR', roff(f'{meaning}: {advice}.')]
    return page
