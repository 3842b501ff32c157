
// run.sh puts what sundial-duty writes above this, and makes a test of both.

#[test]
fn duties_are_those_of_devices() {
    assert_eq!((FIRST_EPOCH, TICK, DUTIES.len()), (1, 40_000_000, 3));
    assert_eq!((DEVICE_NAMES[3], LINK_NAMES[5]), ("l0", "s2-l1"));
    for (plan, duties) in DUTIES.iter().enumerate() {
        for (device, duty) in duties.iter().enumerate() {
            let Some(duty) = duty else {
                assert_eq!((plan, device), (1, 0));
                continue;
            };
            let made = sundial_device::Device::start(duty, 0, 0, 0).unwrap();
            assert_eq!(made.epoch(), Ok(FIRST_EPOCH + plan as u32));
            if let Some(parent) = made.parent().unwrap() {
                let below = (duty.primary.link, device as u32);
                assert!(CHILDREN[plan][parent as usize].contains(&below));
            }
        }
    }
}
