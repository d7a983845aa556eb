"""A JupyterLab or Notebook 7 in a chroot (or on this machine) on 127.0.0.1 over a home of its own, and its pages in a headless Chromium outside."""
import json
import os
import re
import shutil
import signal
import socket
import subprocess
import tempfile
import time

from selenium.webdriver.common.by import By

from browser import TOKEN, free_port
from checks import wait

READY = 'var m = window.janus_history, s = m && m.found(); return !!(s && s.is_on() && s.history.known && s.conversation.comm)'
QUIET = {'@jupyterlab/apputils-extension/notification': {'fetchNews': 'false', 'checkForUpdates': False}}
# Notebook 7.4.7 of Debian forky recurs without end in the buttons of a cell (RangeError, seconds at each change of the active cell) with no extension
# too, so these are left out there.
LEFT_OUT = {'disabledExtensions': {'@jupyterlab/cell-toolbar-extension': True}}


def write(path, value):
    os.makedirs(os.path.dirname(path), exist_ok=True)
    with open(path, 'w') as file:
        json.dump(value, file)


class Server:
    """`jupyter lab` or `jupyter notebook`, started and ended by us alone."""
    def __init__(self, root, program, kernel, spec, extension):
        self.root, self.program, self.port = root.rstrip('/'), program, free_port()
        os.makedirs(f'{self.root}/tmp', exist_ok=True)
        self.outer = tempfile.mkdtemp(prefix='janus-lab-', dir=f'{self.root}/tmp')
        self.home = self.outer[len(self.root):]                 # the same folder as the server sees it
        self.folder, self.url = f'{self.outer}/notebooks', f'http://127.0.0.1:{self.port}'
        self.furnish(kernel, spec, extension)
        with open(f'{self.outer}/server.log', 'w') as log:
            words = (['chroot', self.root] if self.root else []) + self.words()
            self.process = subprocess.Popen(words, stdout=log, stderr=log, start_new_session=True, cwd=self.folder)
        wait('the server', self.answers, 180)

    def furnish(self, kernel, spec, extension):
        """The home: the kernel's program, its kernelspec, and the extension as `make` left it."""
        data, program = f'{self.outer}/.local/share/jupyter', '.local/bin/janus-kernel'
        for it in (self.folder, f'{self.outer}/runtime', f'{self.outer}/.local/bin', f'{data}/labextensions'):
            os.makedirs(it)
        shutil.copy(kernel, f'{self.outer}/{program}')
        shutil.copytree(spec, f'{data}/kernels/janus')
        with open(f'{data}/kernels/janus/kernel.json') as file:
            text = file.read().replace('PATH', f'{self.home}/{program}')
        with open(f'{data}/kernels/janus/kernel.json', 'w') as file:
            file.write(text)
        shutil.copytree(extension, f'{data}/labextensions/janus-history')
        for name, value in QUIET.items():
            write(f'{self.outer}/.jupyter/lab/user-settings/{name}.jupyterlab-settings', value)
        if self.program == 'notebook':
            write(f'{self.outer}/.jupyter/labconfig/page_config.json', LEFT_OUT)

    def words(self):
        app = 'LabApp' if self.program == 'lab' else 'JupyterNotebookApp'
        return ['/usr/bin/env', '-i', f'HOME={self.home}', f'PATH={self.home}/.local/bin:/usr/bin:/bin', 'LANG=C.UTF-8',
                f'JUPYTER_RUNTIME_DIR={self.home}/runtime', 'PYDEVD_DISABLE_FILE_VALIDATION=1', 'ASAN_OPTIONS=detect_leaks=0',
                'jupyter-' + self.program, '--no-browser', '--allow-root', '--ip=127.0.0.1', f'--port={self.port}', '--ServerApp.port_retries=0',
                f'--IdentityProvider.token={TOKEN}', f'--ServerApp.root_dir={self.home}/notebooks', f'--{app}.expose_app_in_browser=True',
                '--LabApp.news_url=', '--LabApp.check_for_updates_class=jupyterlab.NeverCheckForUpdate']

    def answers(self):
        if self.process.poll() is not None:
            raise SystemExit('the server ended; see ' + self.outer + '/server.log')
        socket.create_connection(('127.0.0.1', self.port), 1).close()
        return True

    def connection_file(self):
        """That of the newest kernel, as this machine sees it."""
        folder = f'{self.outer}/runtime'
        files = [os.path.join(folder, it) for it in os.listdir(folder) if re.fullmatch(r'kernel-.*\.json', it)]
        return max(files, key=os.path.getmtime)

    def close(self):
        if self.process.poll() is None:
            self.process.send_signal(signal.SIGTERM)
            try:
                self.process.wait(30)
            except subprocess.TimeoutExpired:
                self.process.kill()
                self.process.wait()
        shutil.rmtree(self.outer, ignore_errors=True)


class Page:
    """A page of Lab or Notebook 7 in a window of a browser."""
    def __init__(self, driver, server, notebook):
        self.driver, self.server, self.notebook, self.handle = driver, server, notebook, driver.current_window_handle
        self.load()

    def load(self):
        self.fetch()
        wait('the page with its kernel', lambda: self.js(READY), 180, .3)

    def fetch(self):
        path = f'/lab/tree/{self.notebook}?reset&token=' if self.server.program == 'lab' else f'/notebooks/{self.notebook}?token='
        self.show()
        self.driver.get(self.server.url + path + TOKEN)

    def show(self):
        if self.driver.current_window_handle != self.handle:
            self.driver.switch_to.window(self.handle)

    def js(self, code, *given):
        self.show()
        return self.driver.execute_script(code, *given)

    def js_later(self, code, *given):
        """Runs a script that calls its last argument with the answer."""
        self.show()
        return self.driver.execute_async_script(code, *given)

    def find(self, css):
        self.show()
        return self.driver.find_element(By.CSS_SELECTOR, css)

    def click(self, css):
        for last in (False, False, False, True):                # what is drawn may have been drawn anew meanwhile
            try:
                return self.find(css).click()
            except Exception:
                if last:
                    raise
                time.sleep(.4)

    def keys(self, *keys):
        """Keys for whatever has the focus."""
        self.show()
        self.driver.switch_to.active_element.send_keys(*keys)

    def command(self, name, **given):
        self.js('jupyterapp.commands.execute(arguments[0], arguments[1])', name, given)

    def console(self, *levels):
        """What the browser's console says since it was asked last."""
        self.show()
        return [it['message'] for it in self.driver.get_log('browser') if it['level'] in levels]

    def errors(self):
        return self.console('SEVERE')

    def picture(self, path):
        self.show()
        self.driver.save_screenshot(path)
