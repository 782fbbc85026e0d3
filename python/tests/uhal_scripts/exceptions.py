import uhal

manager = uhal.ConnectionManager("file://connections.xml")
hw = manager.getDevice("dummy.udp.0")


def attempt(what, call):
    try:
        call()
    except uhal.exception as error:
        print(what, "is refused" if str(error) else "is refused without a reason")
    else:
        print(what, "is done")


attempt("a read of what is write-only", lambda: hw.getNode("REG_WRITE_ONLY").read())
attempt("a write of what is read-only", lambda: hw.getNode("ID").write(1))
attempt("a value that is too large", lambda: hw.getNode("CTRL.GAIN").write(16))
attempt("a node that is not there", lambda: hw.getNode("REGISTER"))
attempt("a block that is too long", lambda: hw.getNode("MEM").readBlock(257))
attempt("a connection that is not there", lambda: manager.getDevice("dummy"))

for kind, call in (
    (uhal.ReadAccessDenied, lambda: hw.getNode("REG_WRITE_ONLY").read()),
    (uhal.WriteAccessDenied, lambda: hw.getNode("ID").write(1)),
    (uhal.BitsSetWhichAreForbiddenByBitMask, lambda: hw.getNode("CTRL.GAIN").write(16)),
    (uhal.NoBranchFoundWithGivenUID, lambda: hw.getNode("REGISTER")),
    (uhal.BulkTransferRequestedTooLarge, lambda: hw.getNode("MEM").readBlock(257)),
    (uhal.ConnectionUIDDoesNotExist, lambda: manager.getDevice("dummy")),
):
    try:
        call()
    except kind:
        print("caught")

bad = hw.getClient().read(0x4000)
try:
    hw.dispatch()
except uhal.IPbusCoreResponseCodeSet as error:
    print("the board refuses:", error.code, bad.valid())
attempt("a read after it", lambda: (hw.getNode("REG").read(), hw.dispatch()))
