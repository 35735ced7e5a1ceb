"""QEMU's own test of a floppy controller, tests/qtest/fdc-test.c, on the device. Each function is a check, as in
machines.py.

The test's text is changed in four places. The machine has this device. The device is let out of reset, as a BIOS does,
since a real controller is held in reset at power-up. Before each look at the interrupt line some of the guest's time
passes, because this device needs time for a command. And the drive has this device's name.
"""
import glob
import os
import subprocess

from checks import content, put

TIME = '''
static bool after_a_while(int line)
{
    clock_step(5000000);
    return get_irq(line);
}
#define get_irq after_a_while
#define sleep(seconds) clock_step((seconds) * 1000000000LL)
'''
BEGIN = '''
static void begin(void)
{
    outb(FLOPPY_BASE + reg_dor, 0x1c);
    get_irq(FLOPPY_IRQ);
    for (int i = 0; i < 4; i++) {
        floppy_send(CMD_SENSE_INT);
        floppy_recv();
        floppy_recv();
    }
}
'''
# Each case: whether a disk is in, and why it doesn't pass on a controller that is as the data sheet says; None if it does.
CASES = {
    "cmos": (False, None),
    "no_media_on_start": (False, None),
    "read_without_media": (False, None),
    "media_change": (False, None),
    "sense_interrupt": (False, None),
    "relative_seek": (False, None),
    "read_id": (True, "asks that INT stays up to the last result byte; that of an 82077AA falls with the first one"),
    "verify": (False, None),
    "media_insert": (False, None),
    "read_no_dma_1": (True, "asks for an interrupt of a SEEK while DOR's bit 3 holds back all interrupts"),
    "read_no_dma_18": (True, "asks for an interrupt of a SEEK while DOR's bit 3 holds back all interrupts"),
    "read_no_dma_19": (True, "asks for an interrupt of a SEEK while DOR's bit 3 holds back all interrupts"),
    "fuzz-registers": (False, None),
    "fuzz/cve_2021_20196": (False, "is skipped: QEMU isn't built with sanitizers"),
    "fuzz/cve_2021_3507": (False, None),
}


def changed(place, text, is_in):
    roms = " ".join(f"-L {os.path.join(place.root, 'usr/share', name)}" for name in ("seabios", "qemu"))
    device = f"{roms} -machine q35 -nodefaults -device telwyddus-fdc,id=fd,speed=0,drives=1" + (",image0=qtest.img" if is_in else "")
    for old, new in (("/* TODO actually test the results", TIME + "\n/* TODO actually test the results"), ("/* pcn: Present Cylinder Number */", BEGIN + "\n/* pcn: Present Cylinder Number */"),
                     ('qtest_start("-machine pc -device floppy,id=floppy0");\n    qtest_irq_intercept_in(global_qtest, "ioapic");',
                      f'qtest_start("{device}");\n    qtest_irq_intercept_in(global_qtest, "ioapic");\n    begin();'), ("'id':'floppy0'", "'id':'/machine/peripheral/fd/bay0'"),
                     ("-drive file=%s,format=raw,if=floppy,snapshot=on", f"{roms} -machine q35 -drive file=%s,format=raw,if=none,id=d0,snapshot=on -device telwyddus-fdc,drive0=d0,speed=0")):
        if old not in text:
            raise RuntimeError(f"fdc-test.c has no longer: {old}")
        text = text.replace(old, new)
    return text


def compiled(place, name, text):
    source, made = os.path.join(place.work, "source"), os.path.join(place.work, "made")
    put(name + ".c", text.encode())
    flags = subprocess.run(["pkg-config", "--cflags", "--libs", "glib-2.0", "gthread-2.0", "gio-2.0"], stdout=subprocess.PIPE, check=True, text=True).stdout.split()
    own = [os.path.join(source, "tests/qtest", it) for it in ("libqtest.c", "libqmp.c")]
    folders = [made, made + "/qapi", source, source + "/include", source + "/tests/qtest", source + "/tests"]
    subprocess.run(["gcc", "-O1", "-w", "-D_GNU_SOURCE", *[f"-I{it}" for it in folders], "-o", name, name + ".c", *own, *sorted(glob.glob(made + "/libqom.fa.p/*.o")),
                    made + "/libqemuutil.a", *flags, "-lm", "-lpthread"], check=True, stderr=subprocess.PIPE)
    return os.path.abspath(name)


def result(place, test, case):
    """Whether a case passes, and what it says at last."""
    environment = {**os.environ, "QTEST_QEMU_BINARY": place.qemu}
    try:
        done = subprocess.run([test, "-p", f"/x86_64/fdc/{case}"], stdout=subprocess.PIPE, stderr=subprocess.STDOUT, timeout=60, env=environment)
    except subprocess.TimeoutExpired:
        return False, "doesn't end"
    text = done.stdout.decode("latin-1")
    lines = [line for line in text.split("\n") if "ERROR" in line or line.startswith(("ok ", "Bail out!"))]
    if not lines:
        raise RuntimeError(f"fdc-test {case}: {text[-300:]}")
    return done.returncode == 0 and lines[-1].startswith("ok ") and "SKIP" not in lines[-1], lines[-1]


def fdc_test(place, say):
    """Each case of tests/qtest/fdc-test.c, with a disk in or none."""
    put("qtest.img", bytes(1440 * 1024))
    text = content(os.path.join(place.work, "source/tests/qtest/fdc-test.c")).decode()
    tests = {is_in: compiled(place, f"fdc-test-{int(is_in)}", changed(place, text, is_in)) for is_in in (False, True)}
    for case, (is_in, reason) in CASES.items():
        passes, said = result(place, tests[is_in], case)
        if reason is None or passes:
            say(passes and reason is None, f"fdc-test {case}{' with a disk in' if is_in else ''}: {'passes' if passes else said}")
        else:
            say(True, f"fdc-test {case} doesn't pass ({said}): it {reason}")


CHECKS = [fdc_test]
