//! The interrupt line and the count of flags set and enabled, as they are held.

mod common;

use common::random::Random;
use common::{access, memory, peripheral, read, set, write};
use compare::harness::call::Call;
use compare::harness::machine::Machine;
use compare::harness::modelled::{Modelled, MODEL};
use compare::harness::words::{reset_words, COUNT_AT, IER_AT, ISR_AT, LINE_AT};
use compare::model::{Answer, Block, Device, Direction, Event, Purpose, RegisterAccess, IISR};

const IAC: Block = Block::Iac;
const IER0: u32 = 0x000;
const ICR0: u32 = 0x100;

/// Reset, but IER0, ISR0 and the two held words, given without their other
/// bits, which are all 1.
fn holding(ier: u32, isr: u32, line: u32, count: u32) -> Device {
    let mut device = Device::reset_state();
    (device.iac.ier[0], device.iac.isr[0]) = (ier, isr);
    device.iac.line = 0xFFFF_FFFE | line;
    device.iac.count = 0xFFFF_FF00 | count;
    // Whoever is not secure is refused at peripherals 0 to 6.
    device.rifsc.seccfgr[0] = 0x7F;
    device
}

/// The line and the count, with their other bits still 1.
fn held(device: &Device) -> (u32, u32) {
    let (line, count) = (device.iac.line, device.iac.count);
    assert_eq!((line | 1, count | 0xFF), (u32::MAX, u32::MAX));
    assert_eq!(device.interrupt_line(), line & 1 == 1);
    (line & 1, count & 0xFF)
}

/// The flags that are present, set and enabled, looked at one by one.
fn counted(device: &Device) -> u32 {
    let bit = |words: &[u32; 6], index: usize| words[index / 32] & (1 << (index % 32)) != 0;
    let both = |&index: &usize| bit(&device.iac.isr, index) && bit(&device.iac.ier, index);
    let all = (0..192).filter(|&index| bit(&IISR, index));
    all.filter(both).count() as u32
}

/// A refused access, which raises the peripheral's flag.
fn raise(device: &mut Device, index: u32) {
    assert_eq!(peripheral(device, index, Purpose::Read, "nu"), 1);
}

#[test]
fn reset_makes_both_words_0() {
    let mut device = holding(3, 3, 1, 7);
    assert_eq!(device.apply(&Event::Reset), Answer::Done(0));
    assert_eq!((device.iac.line, device.iac.count), (0, 0));
    assert!(!device.interrupt_line());
}

#[test]
fn a_raise_of_a_flag_that_was_0() {
    for (count, expected) in [(0, (1, 1)), (7, (1, 8)), (254, (1, 255)), (255, (0, 0))] {
        for line in [0, 1] {
            let mut device = holding(1, 0, line, count);
            raise(&mut device, 0);
            assert_eq!(held(&device), expected);
            assert_eq!(device.iac.isr[0], 1);
        }
    }
}

#[test]
fn a_change_that_leaves_the_fresh_count_sets_the_line_by_the_count() {
    // The flag of 1 is not enabled; peripheral 0 is.
    for (count, line) in [(0, 0), (1, 1), (255, 1)] {
        for wrongly in [0, 1] {
            let mut device = holding(1, 1, wrongly, count);
            raise(&mut device, 1);
            assert_eq!(held(&device), (line, count));
            let mut device = holding(1, 3, wrongly, count);
            set(&mut device, IAC, ICR0, 2);
            assert_eq!(held(&device), (line, count));
            let mut device = holding(1, 1, wrongly, count);
            set(&mut device, IAC, IER0, 5);
            assert_eq!(held(&device), (line, count));
            // One enable goes, another comes.
            let mut device = holding(1, 3, wrongly, count);
            set(&mut device, IAC, IER0, 2);
            assert_eq!(held(&device), (line, count));
        }
    }
}

#[test]
fn an_icr_write_that_clears_flags() {
    for (count, expected) in [(0, (1, 254)), (1, (1, 255)), (2, (0, 0)), (9, (1, 7))] {
        let mut device = holding(0b0111, 0b1011, 0, count);
        set(&mut device, IAC, ICR0, u32::MAX);
        assert_eq!(held(&device), expected);
        assert_eq!(device.iac.isr[0], 0);
    }
}

#[test]
fn an_ier_write_that_changes_enables() {
    for (data, count, expected) in [
        (0xF, 250, (1, 254)),
        (0xF, 252, (0, 0)),
        (0xF, 253, (1, 1)),
        (0x3, 0, (1, 2)),
    ] {
        let mut device = holding(0, 0xF, 1, count);
        set(&mut device, IAC, IER0, data);
        assert_eq!(held(&device), expected);
        set(&mut device, IAC, IER0, 0);
        assert_eq!(held(&device), (u32::from(count != 0), count));
    }
}

#[test]
fn other_events_leave_both() {
    for (line, count) in [(0, 0), (1, 0), (0, 9), (1, 9)] {
        let left = |act: &dyn Fn(&mut Device)| {
            // Bit 7 of IER0 and ISR0 is not present.
            let mut device = holding(0x85, 0x83, line, count);
            device.iac.isr[4] = 0x4000_1400;
            device.rifsc.cr = 1;
            device.rifsc.seccfgr[2] = 1 << 31;
            let before = device.iac.clone();
            act(&mut device);
            assert_eq!(device.iac, before);
            assert_eq!(held(&device), (line, count));
        };
        // Raises of flags that are set already, or not present.
        left(&|d| raise(d, 0));
        left(&|d| raise(d, 1));
        left(&|d| raise(d, 95));
        left(&|d| assert_eq!(read(d, IAC, IER0, "np"), (1, 0)));
        left(&|d| assert_eq!(write(d, IAC, ICR0, 1, "su"), 1));
        left(&|d| assert_eq!(write(d, Block::Rifsc, 0x010, 0, "nu"), 1));
        left(&|d| assert_eq!(memory(d, 2, 0, 1, "r nu"), (1, 1)));
        // Writes that change no bit, or none that is present.
        left(&|d| set(d, IAC, IER0, 0x85));
        left(&|d| set(d, IAC, IER0, 0x05));
        left(&|d| set(d, IAC, 0x014, u32::MAX));
        left(&|d| set(d, IAC, ICR0, 0));
        left(&|d| set(d, IAC, ICR0, 0x80));
        left(&|d| set(d, IAC, ICR0, !0x03));
        // A write elsewhere, a locked one, reads and what is granted.
        left(&|d| set(d, Block::Risaf(2), 0x040, 1));
        left(&|d| assert_eq!(write(d, Block::Rifsc, 0x010, 0, "sp"), 2));
        left(&|d| assert_eq!(write(d, IAC, 0x080, 1, "sp"), 3));
        left(&|d| assert_eq!(read(d, IAC, IER0, "sp"), (0, 5)));
        left(&|d| assert_eq!(memory(d, 2, 0, 1, "r sp"), (0, 0)));
        left(&|d| assert_eq!(peripheral(d, 0, Purpose::Read, "sp"), 0));
    }
}

#[test]
fn accesses_of_a_batch_count_one_after_another() {
    let mut device = holding(0, 0, 0, 254);
    device.iac.ier[4] = u32::MAX;
    let list = [2, 2, 3, 4].map(|guard| access(guard, 0, 2, "r nu"));
    assert_eq!(device.batch(&list, 4).0, Answer::Done(0));
    assert_eq!(held(&device), (1, 1));
}

#[test]
fn a_state_handed_in_is_not_counted_again() {
    let mut words = reset_words();
    (words[IER_AT], words[ISR_AT]) = (3, 3);
    let mut model = Modelled::new(MODEL);
    for (line, count, answer) in [(0, 2, 0), (1, 0, 1), (0xFFFF_FFFE, 5, 0), (u32::MAX, 0, 1)] {
        (words[LINE_AT], words[COUNT_AT]) = (line, count);
        model.load(&words);
        assert_eq!(model.call(&Call::Line).answer, answer);
        assert_eq!(model.words(), words);
    }
    assert_eq!((LINE_AT, COUNT_AT), (45, 46));
}

/// Any event but reset; half of them write to IER or ICR.
fn event(random: &mut Random) -> Event {
    if random.flag() {
        return random.event();
    }
    Event::Register(RegisterAccess {
        block: IAC,
        offset: 0x100 * random.below(2) + 4 * random.below(6),
        direction: Direction::Write,
        ..random.register_access()
    })
}

#[test]
fn after_any_events_from_reset_both_are_true() {
    let mut random = Random::new(7);
    let mut most = 0;
    for _ in 0..50 {
        let mut device = Device::reset_state();
        for _ in 0..500 {
            device.apply(&event(&mut random));
            let count = counted(&device);
            assert_eq!(
                (device.iac.line, device.iac.count),
                (u32::from(count > 0), count)
            );
            most = most.max(count);
        }
    }
    assert!(most > 10, "{most}");
}

#[test]
fn from_any_state_the_count_moves_as_a_fresh_one() {
    let mut random = Random::new(8);
    let (mut moved, mut turned) = (0, 0);
    for _ in 0..300 {
        let mut device = random.device();
        for _ in 0..100 {
            let before = device.clone();
            device.apply(&event(&mut random));
            let (old, new) = (&before.iac, &device.iac);
            if (old.ier, old.isr) == (new.ier, new.isr) {
                assert_eq!((old.line, old.count), (new.line, new.count));
                continue;
            }
            let sum = 256 + old.count % 256 + counted(&device) - counted(&before);
            let (count, line) = (sum % 256, u32::from(![0, 256, 512].contains(&sum)));
            assert_eq!(new.count, old.count / 256 * 256 + count);
            assert_eq!(new.line, old.line / 2 * 2 + line);
            assert_eq!(device.interrupt_line(), line == 1);
            moved += 1;
            turned += u32::from(!(256..512).contains(&sum));
        }
    }
    assert!(moved > 500 && turned > 5, "{moved} {turned}");
}
