"""Tests the files of `editors`: each grammar knows the reserved words of the language and no other word, and the editors can read findings.
The settings of the page are tried in the installed editors."""
import json
import os
import pathlib
import re
import shutil
import subprocess
import tempfile

TOP = pathlib.Path(__file__).resolve().parent.parent
VIM, CODE = TOP / 'editors' / 'vim', TOP / 'editors' / 'vscode'
NAMES = ['ping', 'Int', 'exp', 'Sender', 'newer', 'in_', '_state', 'channelclosed', 'If', 'one1', 'Length', 'exchanged']
FINDING = ('/some where/a b.sg', '12', '5', 'A01', 'note not owned')
PAGE = TOP / 'editors' / 'README.md'


def reserved():
    """Returns the reserved words, from the definitions of the lexer."""
    text = (TOP / 'crates/source/specs/Words.antt').read_text()
    return sorted(re.findall(r'\(\w+, codes "(\w+)"\)', text))


def unlike(what, given):
    """Compares words with the reserved words. The colours of a grammar for numbers, sends and signs do not count."""
    missing, more = sorted(set(reserved()) - set(given)), sorted(set(given) - set(reserved()))
    return ['%s: lacks %s, has too many %s' % (what, missing, more)] if missing or more or len(given) != len(set(given)) else []


def words_of_the_pages(_):
    text = (TOP / 'docs/LANGUAGE.md').read_text()
    words = re.search(r'reserved words: `([^`]*)`', text)[1].split()
    return unlike('docs/LANGUAGE.md', words) + ([] if len(words) > 30 else ['few words'])


def words_of_vim(_):
    text = (VIM / 'syntax/sing.vim').read_text()
    return unlike('sing.vim', [word for line in re.findall(r'^syntax keyword \w+ (?!contained)(.*)$', text, re.M) for word in line.split()])


def grammar():
    return json.loads((CODE / 'syntaxes/sing.tmLanguage.json').read_text())


def words_of_vs_code(_):
    patterns = [pattern['match'] for pattern in grammar()['repository']['words']['patterns']]
    found = [word for pattern in patterns for word in re.findall(r'\w+', pattern.replace('\\b', ''))]
    matched = [word for word in reserved() if sum(bool(re.fullmatch(pattern, word)) for pattern in patterns) != 1]
    others = ['a name: ' + name for name in NAMES for pattern in patterns if re.search(pattern, name)]
    return unlike('sing.tmLanguage.json', found) + ['not matched once: ' + word for word in matched] + others


def parts_of_vs_code(_):
    """What the grammar includes exists, and so do the files that the extension names."""
    known, parts = grammar(), json.loads((CODE / 'package.json').read_text())['contributes']
    found = [part for part in known['patterns'] if part['include'][1:] not in known['repository']]
    json.loads((CODE / 'language-configuration.json').read_text())
    paths = [parts['languages'][0]['configuration'], parts['grammars'][0]['path']]
    return ['not there: %s' % part for part in found + [path for path in paths if not (CODE / path).exists()]]


def block(kind, holds=''):
    """Returns the block of the page that has this mark and this text."""
    return next(it for it in re.findall(r'```%s\n(.*?)```' % kind, PAGE.read_text(), re.S) if holds in it)


def problems_of_vs_code(_):
    matcher = json.loads((CODE / 'package.json').read_text())['contributes']['problemMatchers'][0]
    pattern = matcher['pattern']
    match = re.match(pattern['regexp'], '%s:%s:%s: %s %s' % FINDING)
    given = tuple(match[pattern[part]] for part in ('file', 'line', 'column', 'code', 'message'))
    task = json.loads(block('json'))['tasks'][0]
    named = task['problemMatcher'] == '$' + matcher['name']
    return ([] if given == FINDING else ['read as %r' % (given,)]) + ([] if named else ['the task names another matcher'])


def vim(runtime, text, script):
    """Runs a script in Vim with these settings on a text, and returns what it leaves in the file `said`."""
    with tempfile.TemporaryDirectory() as made:
        folder = pathlib.Path(made)
        (folder / 'script.vim').write_text(script)
        (folder / 'a b.sg').write_text(text)
        start = [r"execute 'set runtimepath^=' . escape('%s', '\ ,')" % runtime, 'filetype plugin on', 'syntax on', r'edit a\ b.sg']
        words = [word for command in start + ['source script.vim', 'qall!'] for word in ('-c', command)]
        subprocess.run(['vim', '-N', '-u', 'NONE', '-i', 'NONE', '-n', '-es', *words], cwd=folder, timeout=60, stdin=subprocess.DEVNULL,
                       stdout=subprocess.DEVNULL, stderr=subprocess.DEVNULL)
        return (folder / 'said').read_text().splitlines()


def colours_of_vim(_):
    """Compares the colour that Vim, if it is installed, gives to the last letter of each line."""
    if not shutil.which('vim'):
        return []
    lines = reserved() + NAMES + ['// class', '/*/ class', '*/ zz', 'e.SendAsk']
    said = vim(VIM, '\n'.join(lines) + '\n', """
call writefile(map(range(1, line('$')), 'synIDattr(synID(v:val, col([v:val, "$"]) - 1, 1), "name")'), 'said')""")
    words, names, others = said[:len(reserved())], said[len(reserved()):-4], said[-4:]
    found = ['%s has no colour' % word for word, colour in zip(reserved(), words) if not colour]
    found += ['%s is %s' % (name, colour) for name, colour in zip(NAMES, names) if colour]
    return found + ([] if others == ['singComment', 'singComment', '', 'singSend'] else ['others: %s' % others])


def repository(top, program):
    """Makes a copy of what editors use in the repository, with this program."""
    for name in ('editors/vim', 'tools', 'docs/codes'):
        shutil.copytree(TOP / name, top / name)
    (top / 'out').mkdir()
    (top / 'out' / 'singcheck').symlink_to(program)
    return top


def make_in_vim(program):
    """Runs `:make` in a repository with a blank in its path, if there is Vim: the finding, its trace, and why a file cannot be read."""
    if not shutil.which('vim'):
        return []
    with tempfile.TemporaryDirectory() as made:
        top = repository(pathlib.Path(made) / 'a repository', program)
        said = vim(top / 'editors' / 'vim', (TOP / 'examples/note.sg').read_text(), """silent make!
let one = getqflist()[0]
call writefile([one.lnum . ':' . one.col, one.text, fnamemodify(bufname(one.bufnr), ':t'), len(getqflist())], 'said')
silent make! --why
call writefile([join(map(getqflist(), 'v:val.lnum . ":" . v:val.col . " " . v:val.text'), ', ')], 'said', 'a')
call delete(expand('%:p'))
silent! make!
call writefile([join(map(getqflist(), 'v:val.text'))], 'said', 'a')""")
    asked = ['7:5', 'A01 note not owned', 'a b.sg', '1', '7:5 A01 note not owned, 5:21 note: note new, 6:12 note: note deleted']
    is_told = len(said) == 6 and 'cannot read' in said[5]
    return [] if said[:5] == asked and is_told else ['read as %s' % said]


NEOVIM = """
local said = {}
for _, name in ipairs(vim.fn.glob('*.sg', true, true)) do
  vim.cmd('edit ' .. name)
  vim.wait(20000, function() return #vim.diagnostic.get(0) > 0 end, 20)
  for _, it in ipairs(vim.diagnostic.get(0)) do
    table.insert(said, string.format('%s:%d:%d: %s %s', name, it.lnum + 1, it.col + 1, it.code, it.message))
  end
end
vim.fn.writefile(said, 'said')
vim.cmd('qall!')
"""
EMACS = """
(package-initialize)
(load (expand-file-name "lines.el"))
(require 'eglot)
(setq eglot-sync-connect 30 said nil)
(dolist (name (directory-files "." nil "\\\\.sg$"))
  (find-file name)
  (if (eglot-current-server) nil (call-interactively 'eglot))
  (flymake-start)
  (let ((end (+ (float-time) 20)))
    (while (and (< (float-time) end) (null (flymake-diagnostics))) (accept-process-output nil 0.1)))
  (dolist (it (flymake-diagnostics))
    (goto-char (flymake-diagnostic-beg it))
    (let ((column (1+ (- (position-bytes (point)) (position-bytes (line-beginning-position)))))
          (text (replace-regexp-in-string "^singcheck \\\\[\\\\(.*\\\\)\\\\]: " "\\\\1 " (flymake-diagnostic-text it))))
      (setq said (cons (format "%s:%d:%d: %s\\n" name (line-number-at-pos) column text) said)))))
(write-region (apply 'concat said) nil "said")
(kill-emacs)
"""


def shown_by(program, files, words):
    """Compares what an editor shows of texts with findings with what `check` prints. The home folder has the repository and these files."""
    with tempfile.TemporaryDirectory() as made:
        home = pathlib.Path(made)
        repository(home / 'singcheck', program)
        for name, text in files.items():
            (home / name).parent.mkdir(parents=True, exist_ok=True)
            (home / name).write_text(text)
        for name in ('note', 'leak_on_one_way', 'missing_case', 'used_after_sent'):
            shutil.copy(TOP / 'examples' / (name + '.sg'), home)
        note = (TOP / 'examples' / 'note.sg').read_text()
        (home / 'wide.sg').write_text(note.replace('    note.pages', '/* \u00e4 \U0001f600 */ note.pages'))
        asked = []
        for name in sorted(path.name for path in home.glob('*.sg')):
            ran = subprocess.run([program, 'check', name], cwd=home, stdin=subprocess.DEVNULL, stdout=subprocess.PIPE, text=True)
            asked += re.sub(r'(?m)^(\d+:\d+) ', name + r':\1: ', ran.stdout).splitlines()[:-1]
        env = {**{name: value for name, value in os.environ.items() if not name.startswith('XDG_')}, 'HOME': made, 'LC_ALL': 'C.UTF-8'}
        ran = subprocess.run(words, cwd=home, env=env, timeout=120, stdin=subprocess.DEVNULL, stdout=subprocess.PIPE,
                             stderr=subprocess.STDOUT, text=True)
        said = (home / 'said').read_text().splitlines() if (home / 'said').exists() else [ran.stdout]
        return [] if sorted(said) == sorted(asked) and len(asked) > 4 else ['expected %r, given %r' % (sorted(asked), sorted(said))]


def findings_in_neovim(program):
    """With the settings of the page Neovim, if it is installed, shows what `check` prints, also after letters that are not ASCII."""
    if not shutil.which('nvim'):
        return []
    files = {'.config/nvim/init.lua': block('lua'), 'shows.lua': NEOVIM}
    return shown_by(program, files, ['nvim', '--headless', '-c', 'luafile shows.lua'])


def findings_in_emacs(program):
    """The same for Emacs and its client `eglot`."""
    words = ['emacs', '--batch', '--eval', "(progn (package-initialize) (require 'eglot))"]
    if not shutil.which('emacs') or subprocess.run(words, stdin=subprocess.DEVNULL, capture_output=True).returncode:
        return []
    return shown_by(program, {'lines.el': block('elisp'), 'shows.el': EMACS}, ['emacs', '--batch', '-l', 'shows.el'])


def lines_for_helix(_):
    """The settings for Helix are TOML, and define the server that the language names."""
    try:
        import tomllib
    except ImportError:
        return []
    its = tomllib.loads(block('toml'))
    language, servers = its['language'][0], its['language-server']
    fits = language['file-types'] == ['sg'] and [servers[name]['command'][-10:] for name in language['language-servers']] == ['/tools/lsp']
    return [] if fits else ['read as %r' % its]


def commands_of_the_ci(program):
    """The commands of the page annotate a finding, end with its status, and leave SARIF with its trace."""
    annotate, scan = re.findall(r'^- run: (.*)$', block('yaml'), re.M)
    with tempfile.TemporaryDirectory() as made:
        folder = pathlib.Path(made)
        repository(folder / 'singcheck', program)
        (folder / 'src').mkdir()
        shutil.copy(TOP / 'examples' / 'note.sg', folder / 'src')
        ran = [subprocess.run(['bash', '-c', command], cwd=folder, stdin=subprocess.DEVNULL, stdout=subprocess.PIPE, text=True)
               for command in (annotate, scan)]
        log = json.loads((folder / 'singcheck.sarif').read_text())
    asked = '::error file=src/note.sg,line=7,col=5,title=A01::note not owned\n'
    given = [(it.stdout, it.returncode) for it in ran]
    traced = [len(it['codeFlows'][0]['threadFlows'][0]['locations']) for it in log['runs'][0]['results']]
    return [] if (given, traced) == ([(asked, 1), ('', 0)], [3]) else ['given %r, traces %r' % (given, traced)]


def hook_before_a_commit(program):
    """The hook of the page refuses a commit with a finding, even if the file in the folder no longer has it, and allows other commits."""
    if not shutil.which('git'):
        return []
    with tempfile.TemporaryDirectory() as made:
        home, folder = pathlib.Path(made), pathlib.Path(made) / 'a project'
        repository(home / 'singcheck', program)
        env = {'HOME': made, 'PATH': os.environ['PATH'], 'GIT_AUTHOR_NAME': 'a', 'GIT_AUTHOR_EMAIL': 'a', 'GIT_COMMITTER_NAME': 'a',
               'GIT_COMMITTER_EMAIL': 'a', 'PYTHONDONTWRITEBYTECODE': '1'}

        def git(*words):
            return subprocess.run(['git', *words], cwd=folder, env=env, stdin=subprocess.DEVNULL, stdout=subprocess.PIPE,
                                  stderr=subprocess.STDOUT, text=True, timeout=60)

        (folder / 'a folder').mkdir(parents=True)
        git('init', '-q')
        (folder / '.git/hooks/pre-commit').write_text(block('sh', '#!/bin/sh'))
        (folder / '.git/hooks/pre-commit').chmod(0o755)
        (folder / 'a page.txt').write_text('no text of Sing#')
        (folder / 'ping.sg').write_text((TOP / 'examples/ping.sg').read_text())
        git('add', '.')
        found = ['a clean commit is refused'] if git('commit', '-qm', 'one').returncode else []
        note = (TOP / 'examples/note.sg').read_text()
        (folder / 'a folder' / '-a note.sg').write_text(note)
        git('add', '.')
        (folder / 'a folder' / '-a note.sg').write_text('')
        ran = git('commit', '-qm', 'two')
        is_said = 'a folder/-a note.sg:7:5: A01 note not owned' in ran.stdout
        found += [] if ran.returncode and is_said else ['a finding is committed: %d, %r' % (ran.returncode, ran.stdout)]
        git('add', '.')
        (folder / 'a folder' / '-a note.sg').write_text(note)
        return found + (['a repaired commit is refused'] if git('commit', '-qm', 'three').returncode else [])


def extension_of_vs_code(program):
    """The extension shows what `why` prints, an outline, and the page of a code, also after its server was killed. A stub replaces the
    editor. Node runs it, if it is installed."""
    if not shutil.which('node'):
        return []
    words = ['node', TOP / 'cases' / 'vscode_stub' / 'driver.js', program, TOP / 'examples' / 'note.sg']
    ran = subprocess.run(words, stdin=subprocess.DEVNULL, stdout=subprocess.PIPE, stderr=subprocess.STDOUT, timeout=60, text=True)
    page = (TOP / 'docs' / 'codes' / 'A01.md').read_text().splitlines()[0]
    asked = '7:5 A01 note not owned\n  5:21 note new\n  6:12 note deleted\nstruct Note, class Desk (method Write)\n%s\n' % page
    return [] if ran.stdout == asked else ['expected %r, given %r' % (asked, ran.stdout)]


TESTS = [('editors/' + test.__name__, test) for test in
         (words_of_the_pages, words_of_vim, words_of_vs_code, parts_of_vs_code, problems_of_vs_code, colours_of_vim, make_in_vim,
          findings_in_neovim, findings_in_emacs, lines_for_helix, extension_of_vs_code, commands_of_the_ci,
          hook_before_a_commit)]
