use outside::answers::{MemFields, StreamFields};
use outside::linked;
use outside::random::{agree, same};

/// Every control byte.
#[test]
fn fields_of_control_bytes() {
    for control in 0..=255u8 {
        let bit = |i: u8| control >> i & 1 == 1;
        let stream = StreamFields {
            valid: bit(0),
            ready: bit(1),
            clear: bit(2),
            reserved: bit(3),
            strb: control >> 4,
        };
        assert_eq!(linked::stream_fields(control), stream, "byte {control}");
        assert_eq!(linked::any_reserved(&[control]), bit(3), "byte {control}");
        let memory = MemFields {
            req: bit(0),
            gnt: bit(1),
            wen: bit(2),
            r_valid: bit(3),
        };
        assert_eq!(linked::memory_fields(control), memory, "byte {control}");
    }
}

#[test]
fn any_reserved() {
    let kinds = ["false", "false, clear", "true", "true, clear"];
    agree(20_000, &kinds, |random| {
        let mut control = random.bytes(random.below(40));
        let mask = random.pick(&[0xff, 0xfb, 0xf7, 0xf3]);
        control.iter_mut().for_each(|byte| *byte &= mask);
        let model = control.iter().any(|byte| byte & 8 != 0);
        same(
            "reserved",
            &(linked::any_reserved(&control), &control),
            &(model, &control),
        )?;
        let clear = control.iter().any(|byte| byte & 4 != 0);
        Ok(format!("{model}{}", ["", ", clear"][usize::from(clear)]))
    });
}
