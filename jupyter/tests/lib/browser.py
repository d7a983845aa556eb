"""A notebook server on 127.0.0.1 for a home of its own, and a headless Chromium that shows its pages."""
import os
import re
import shutil
import signal
import socket
import subprocess
import time

from selenium import webdriver
from selenium.common.exceptions import NoSuchElementException, StaleElementReferenceException, WebDriverException
from selenium.webdriver.chrome.options import Options
from selenium.webdriver.chrome.service import Service
from selenium.webdriver.common.by import By
from selenium.webdriver.remote.remote_connection import RemoteConnection
from urllib3.exceptions import HTTPError

from checks import wait

TOKEN = 'loopback'
SWITCHES = ('--headless=new', '--no-sandbox', '--disable-dev-shm-usage', '--disable-gpu', '--no-first-run', '--disable-background-networking',
            '--disable-component-update', '--disable-sync', '--proxy-server=direct://', '--lang=en-US', '--disable-background-timer-throttling',
            '--disable-renderer-backgrounding', '--disable-backgrounding-occluded-windows', '--host-resolver-rules=MAP * ~NOTFOUND , EXCLUDE 127.0.0.1')
LOADED = '''return !!(window.Jupyter && Jupyter.notebook && Jupyter.notebook._fully_loaded && Jupyter.notebook.kernel &&
    Jupyter.notebook.kernel.is_connected() && Jupyter.notebook.kernel.info_reply.status)'''
CELLS = '''return Jupyter.notebook.get_cells().map(function (it) { var code = it.cell_type === 'code'; return {type: it.cell_type, text: it.get_text(),
    prompt: code ? it.input_prompt_number : null, classes: it.element.attr('class'),
    output: code ? it.element.find('.output_area').map(function () { return $(this).find('.output_subarea').text(); }).get().join('|') : ''}; })'''
WAITS = 'var it = Jupyter.notebook.get_cell(arguments[0]); return it.element.hasClass("running") || it.input_prompt_number === "*"'


def free_port():
    with socket.socket() as it:
        it.bind(('127.0.0.1', 0))
        return it.getsockname()[1]


def environment(home):
    out = {name: value for name, value in os.environ.items() if not name.startswith(('JUPYTER', 'XDG', 'IPYTHON', 'PYTHON'))}
    return {**out, 'HOME': home, 'PATH': f'{home}/.local/bin:/usr/bin:/bin:/usr/sbin:/sbin', 'JUPYTER_RUNTIME_DIR': f'{home}/runtime',
            'PYDEVD_DISABLE_FILE_VALIDATION': '1'}


class Server:
    """`jupyter notebook`, or `jupyter nbclassic`, over a folder. It is started and ended by us alone."""
    def __init__(self, home, folder, program='notebook'):
        self.home, self.folder, self.port, self.logged = home, folder, free_port(), f'{home}/server.log'
        app = 'NotebookApp' if program == 'notebook' else 'ServerApp'
        words = ['jupyter', program, '--no-browser', '--ip=127.0.0.1', f'--port={self.port}', f'--{app}.port_retries=0', f'--{app}.token={TOKEN}',
                 f'--notebook-dir={folder}'] + (['--allow-root'] if os.getuid() == 0 else [])
        with open(self.logged, 'w') as log:
            self.process = subprocess.Popen(words, env=environment(home), stdout=log, stderr=log, cwd=folder, start_new_session=True)
        self.url = f'http://127.0.0.1:{self.port}'
        wait('the notebook server', self.answers, 120)

    def answers(self):
        if self.process.poll() is not None:
            raise SystemExit('the server ended; see ' + self.logged)
        socket.create_connection(('127.0.0.1', self.port), 1).close()
        return True

    def connection_file(self):
        """That of the newest kernel."""
        folder = f'{self.home}/runtime'
        files = [os.path.join(folder, it) for it in os.listdir(folder) if re.fullmatch(r'kernel-.*\.json', it)]
        return max(files, key=os.path.getmtime)

    def close(self):
        if self.process.poll() is not None:
            return
        self.process.send_signal(signal.SIGTERM)
        try:
            self.process.wait(30)
        except subprocess.TimeoutExpired:
            self.process.kill()
            self.process.wait()


def kill_kernel(connection):
    """Ends the kernel whose command line names the connection file; answers how many there were."""
    name, ended = os.path.basename(connection), 0
    for pid in filter(str.isdigit, os.listdir('/proc')):
        try:
            with open(f'/proc/{pid}/cmdline') as file:
                given = file.read().split('\0')
            if os.path.basename(given[0]) == 'janus-kernel' and name in ' '.join(given):
                os.kill(int(pid), signal.SIGKILL)
                ended += 1
        except OSError:
            pass
    return ended


def browser(profile, width=1500, height=1000):
    options = Options()
    options.binary_location = shutil.which('chromium')
    for it in (*SWITCHES, f'--window-size={width},{height}', '--user-data-dir=' + profile):
        options.add_argument(it)
    options.set_capability('goog:loggingPrefs', {'browser': 'ALL'})
    RemoteConnection.set_timeout(180)
    for last in (False, False, True):                           # now and then a browser doesn't come up on a machine that is very busy
        service = Service(shutil.which('chromedriver'))
        try:
            driver = webdriver.Chrome(service=service, options=options)
            break
        except (WebDriverException, HTTPError):
            service.stop()
            if last:
                raise
    driver.set_script_timeout(60)
    driver.set_page_load_timeout(180)
    return driver


class Page:
    """A notebook's page in a window of a browser."""
    def __init__(self, driver, server, notebook):
        self.driver, self.server, self.notebook, self.handle = driver, server, notebook, driver.current_window_handle
        self.load()

    def load(self):
        self.show()
        self.driver.get(f'{self.server.url}/notebooks/{self.notebook}?token={TOKEN}')
        self.ready()

    def ready(self):
        wait('the page with its kernel', lambda: self.js(LOADED), 120)

    def show(self):
        if self.driver.current_window_handle != self.handle:
            self.driver.switch_to.window(self.handle)

    def js(self, code, *given):
        self.show()
        return self.driver.execute_script(code, *given)

    def js_later(self, code, *given):
        """Runs a script that calls its last argument with the answer."""
        self.show()
        return self.driver.execute_async_script(code, *given)

    def find(self, css):
        self.show()
        return self.driver.find_element(By.CSS_SELECTOR, css)

    def click(self, css):
        for last in (False, False, False, True):                # what is drawn may have been drawn anew meanwhile
            try:
                return self.find(css).click()
            except (StaleElementReferenceException, NoSuchElementException):
                if last:
                    raise
                time.sleep(.3)

    def keys(self, *keys):
        """Keys for whatever has the focus."""
        self.show()
        self.driver.switch_to.active_element.send_keys(*keys)

    def cells(self):
        return self.js(CELLS)

    def add(self, text, kind='code'):
        """The index of a new cell at the end."""
        return self.js('''var it = Jupyter.notebook, cell = it.insert_cell_at_bottom(arguments[1]); cell.set_text(arguments[0]);
            it.select(it.ncells() - 1); return it.ncells() - 1''', text, kind)

    def select(self, index):
        self.js('Jupyter.notebook.select(arguments[0]); Jupyter.notebook.focus_cell()', index)

    def start(self, index):
        """Begins to run a cell by the page's button."""
        self.select(index)
        self.click('#run_int > button:nth-child(1)')

    def run(self, index, timeout=60):
        self.start(index)
        return self.answered(index, timeout)

    def answered(self, index, timeout=60):
        wait(f'the answer to cell {index}', lambda: not self.js(WAITS, index), timeout)
        time.sleep(.1)
        return self.cells()[index]

    def menu(self, menu, item):
        self.click(menu)
        time.sleep(.3)
        self.click(item)

    def interrupt(self):
        self.click('#run_int > button:nth-child(2)')

    def restart(self):
        self.menu('#kernellink', '#restart_kernel a')
        wait('the question', lambda: self.js('return $(".modal-dialog .btn-danger:visible").length') == 1)
        self.js('$(".modal-dialog .btn-danger:visible").click()')

    def errors(self):
        self.show()
        return [it['message'] for it in self.driver.get_log('browser') if it['level'] == 'SEVERE']

    def picture(self, path):
        self.show()
        self.driver.save_screenshot(path)
