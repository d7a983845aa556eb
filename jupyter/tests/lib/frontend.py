"""A second frontend: jupyter_client over the kernel's connection file."""
import time
import uuid

import zmq
from jupyter_client import BlockingKernelClient


class Frontend:
    def __init__(self, file):
        self.client = BlockingKernelClient(connection_file=file)
        self.client.load_connection_file()
        self.client.start_channels()
        self.client.wait_for_ready(timeout=60)
        self.comm = uuid.uuid4().hex
        self.send('comm_open', {'comm_id': self.comm, 'target_name': 'janus.undo', 'data': {}})

    def send(self, kind, content):
        message = self.client.session.msg(kind, content)
        self.client.shell_channel.send(message)
        return message['header']['msg_id']

    def heard(self, asked, kind, timeout=120):
        """The content of the broadcast of a kind, or of the idle status, that answers a request."""
        until = time.time() + timeout
        while time.time() < until:
            try:
                message = self.client.get_iopub_msg(timeout=min(5, max(.1, until - time.time())))
            except Exception:
                continue
            is_idle = message['msg_type'] == 'status' and message['content']['execution_state'] == 'idle'
            if message['parent_header'].get('msg_id') == asked and (message['msg_type'] == kind or kind == 'idle' and is_idle):
                return message['content']
        raise AssertionError('no ' + kind)

    def ask(self, op, **more):
        return self.heard(self.send('comm_msg', {'comm_id': self.comm, 'data': {'op': op, **more}}), 'comm_msg')['data']

    def begin(self, code, **more):
        return self.send('execute_request', {'code': code, 'silent': False, **more})

    def stop(self, asked, timeout=200):
        """Interrupts a cell until its end is heard, since an interrupt before it began to run interrupts nothing. No later cell is interrupted."""
        until, sent, ended = time.time() + timeout, 0, None
        while ended is None and time.time() < until:
            self.client.control_channel.send(self.client.session.msg('interrupt_request', {}))
            sent += 1
            try:
                ended = self.heard(asked, 'idle', 1)
            except AssertionError:
                continue
        for _ in range(sent):
            self.client.get_control_msg(timeout=60)
        if ended is None:
            raise AssertionError('the cell was not interrupted')

    def run(self, code, **more):
        return self.heard(self.begin(code, **more), 'idle')

    def run_many(self, code, times, batch=200):
        """Runs a cell many times, and throws away what comes of it."""
        replies, shell = 0, zmq.Socket.shadow(self.client.shell_channel.socket.underlying)
        for i in range(times):
            self.begin(code)
            if i % batch == batch - 1 or i == times - 1:
                while replies <= i:
                    if not shell.poll(60000):
                        raise AssertionError(f'{i + 1 - replies} of {i + 1} cells have no reply')
                    shell.recv_multipart()
                    replies += 1
                replies += self.drain()

    def drain(self):
        """Throws away what came, so that the client's queues stay short. Answers how many replies there were."""
        count = 0
        for channel in (self.client.iopub_channel, self.client.shell_channel):
            plain, count = zmq.Socket.shadow(channel.socket.underlying), 0
            while plain.poll(0):
                plain.recv_multipart()
                count += 1
        return count

    def comms(self):
        asked = self.send('comm_info_request', {'target_name': 'janus.undo'})
        until = time.time() + 30
        while time.time() < until:
            message = self.client.get_shell_msg(timeout=30)
            if message['parent_header'].get('msg_id') == asked:
                return list(message['content']['comms'])
        raise AssertionError('no comm_info_reply')

    def close(self):
        self.send('comm_close', {'comm_id': self.comm, 'data': {}})
        time.sleep(.2)
        self.client.stop_channels()
