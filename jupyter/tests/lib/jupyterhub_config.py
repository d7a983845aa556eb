"""JupyterHub on 127.0.0.1 for a try: any name with the password `try`, servers as the user who starts the hub. Not for use."""
import os

here = os.environ['HUB_HERE']
ports = [int(it) for it in os.environ['HUB_PORTS'].split(',')]
c = get_config()  # noqa: F821

# What the guide shows.
c.Spawner.default_url = '/tree'
c.Spawner.environment = {'JUPYTERHUB_SINGLEUSER_APP': 'notebook.notebookapp.NotebookApp'} if os.environ['HUB_SERVER'] == 'notebook' else {}
c.Spawner.environment['JUPYTER_PATH'] = os.environ['HUB_JUPYTER_PATH']

# For the try.
c.JupyterHub.bind_url = f'http://127.0.0.1:{ports[0]}'
c.JupyterHub.hub_ip = '127.0.0.1'
c.JupyterHub.hub_port = ports[1]
c.ConfigurableHTTPProxy.api_url = f'http://127.0.0.1:{ports[2]}'
c.ConfigurableHTTPProxy.pid_file = f'{here}/proxy.pid'
c.JupyterHub.authenticator_class = 'dummy'
c.DummyAuthenticator.password = 'try'
c.JupyterHub.spawner_class = 'simple'
c.SimpleLocalProcessSpawner.home_dir_template = here + '/homes/{username}'
c.Spawner.ip = '127.0.0.1'
c.Spawner.start_timeout = c.Spawner.http_timeout = 180
c.Spawner.args = ['--allow-root'] if os.getuid() == 0 else []
c.JupyterHub.db_url = f'sqlite:///{here}/hub.sqlite'
c.JupyterHub.cookie_secret_file = f'{here}/cookie_secret'
c.JupyterHub.cleanup_servers = True
c.JupyterHub.cleanup_proxy = True
