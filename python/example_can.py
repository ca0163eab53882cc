"""A request and its response over python-can, where the first response is lost: the server tries each frame once alone,
and one bit of that one is struck. The client asks again after 20 ms of the bus, and has its answer then."""

import can

REQUEST, RESPONSE, TIMEOUT, DATA = 0x7E0, 0x7E8, 0.02, 19


def ask(client, number):
    """Sends a request until it is answered. The answer, and how often it was asked."""
    for tries in range(1, 4):
        client.send(can.Message(arbitration_id=REQUEST, is_extended_id=False, data=[number]))
        serve()
        answer = client.recv(TIMEOUT)
        if answer and answer.arbitration_id == RESPONSE and answer.data[0] == number:
            return answer, tries
    raise TimeoutError(f"no answer to request {number}")


def serve():
    """Answers one request: a byte by its square."""
    request = server.recv(TIMEOUT)
    if request and request.arbitration_id == REQUEST:
        number = request.data[0]
        if number == 3 and number not in struck:
            struck.append(number)
            server.strike(server.bit + DATA)
        square = (number * number).to_bytes(2, "big")
        server.send(can.Message(arbitration_id=RESPONSE, is_extended_id=False, data=[number, *square]))


struck = []
with can.Bus(interface="sja", channel="example", nodes=2) as client, \
        can.Bus(interface="sja", channel="example", one_shot=True) as server:
    client.sleep(0.001)
    for number in range(1, 6):
        answer, tries = ask(client, number)
        square = int.from_bytes(answer.data[1:], "big")
        print(f"{answer.timestamp:.6f} {number} squared is {square}, asked {tries} times")
    print("lost", server.frame_errors, "frame, client", client.state.name, "counters", *client.counters)
