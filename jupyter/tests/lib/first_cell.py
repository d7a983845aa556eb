"""Starts the installed kernel as the notebook does, runs a cell and undoes it. The status is 0 where all was as it has to be."""
import sys
import uuid

from jupyter_client.manager import start_new_kernel

manager, client = start_new_kernel(kernel_name='janus')
comm = uuid.uuid4().hex


def send(kind, content):
    message = client.session.msg(kind, content)
    client.shell_channel.send(message)
    return message['header']['msg_id']


def heard(asked, kind):
    while True:
        message = client.get_iopub_msg(timeout=20)
        if message['parent_header'].get('msg_id') == asked and message['msg_type'] == kind:
            return message['content']


ran = heard(client.execute('int x x += 5'), 'execute_result')['data']['text/plain']
send('comm_open', {'comm_id': comm, 'target_name': 'janus.undo', 'data': {}})
undone = heard(send('comm_msg', {'comm_id': comm, 'data': {'op': 'undo', 'n': 1}}), 'comm_msg')['data']
state = heard(send('comm_msg', {'comm_id': comm, 'data': {'op': 'state'}}), 'comm_msg')['data']
client.stop_channels()
manager.shutdown_kernel()
print(ran, undone, state)
sys.exit(0 if ran == 'x = 5' and undone['undone'] == 1 and state['world'] == [] and state['nodes'] == 1 else 1)
