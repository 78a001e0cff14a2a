"""Applies the settings of the script singcheck, so that a measured program runs as it does there."""
import os
import pathlib
import re
import subprocess

NAME = re.compile(r'^export (\w+)=', re.M)
LINE = re.compile(r'^(?:settings\+?=|export ).*$', re.M)


def set_as_script():
    """Exports what the script exports, to this process and the programs that it runs. A variable that is already set stays."""
    script = (pathlib.Path(__file__).resolve().parent.parent / 'singcheck').read_text()
    for name in NAME.findall(script):
        asked = '\n'.join([*LINE.findall(script), f'printf %s "${name}"'])
        os.environ[name] = subprocess.run(['bash', '-c', asked], stdout=subprocess.PIPE, text=True, check=True).stdout
