"""A little server: a sandbox is opened and filled, its snapshot taken, and after each of three requests it is rewound, so that no request meets
anything of the one before."""

from gazhuppin import Machine, address

SANDBOX = 0
TALLY = address(0, 5)
OTHER_PAGE = address(1, 0)


def serve(machine, request):
    """A request adds its number to the tally, and writes it on the other page."""
    tally = machine.read(SANDBOX, TALLY)
    machine.write(SANDBOX, TALLY, tally + request)
    machine.write(SANDBOX, OTHER_PAGE, request)
    print(f"request {request}: the tally was {tally} and is {machine.read(SANDBOX, TALLY)}")


def main():
    machine = Machine(frames=16)
    machine.open(SANDBOX, share=8)
    page = machine.map(SANDBOX, pages=2)
    print(f"sandbox 0 is open, 2 pages are mapped from page {page} on")
    machine.write(SANDBOX, TALLY, 100)
    print(f"the tally is 100; the snapshot has {machine.snapshot(SANDBOX)} pages")
    for request in (1, 2, 3):
        serve(machine, request)
        pages = machine.rewind(SANDBOX)
        tally, other = machine.read(SANDBOX, TALLY), machine.read(SANDBOX, OTHER_PAGE)
        print(f"{pages} pages put back: tally {tally}, other page {other}, {machine.report(SANDBOX)} frames held")


if __name__ == "__main__":
    main()
