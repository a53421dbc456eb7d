//! A host in Rust: two bookings on one page, and the change list that holds both.
use hekthumar::*;

fn main() -> Result<(), Box<dyn std::error::Error>> {
    // A program, and an account of 6,000 bytes that this program owns and may write.
    let mut builder = SnapshotBuilder::new();
    let program = builder.account(Account::program([0x13, 0, 0, 0]));
    let slots = builder.account(Account::data(program, vec![7; 6_000]).writable());
    let snapshot = builder.build()?;

    // Eight frames: room for eight pages that are copies, stack or heap. Begin takes one for the stack.
    let (mut control, mut pool) = (vec![0; control_len(8)], vec![0; pool_len(8)]);
    let mut memory = Memory::new(&snapshot, &mut control, &mut pool);
    memory.begin(program, Edition::Newer)?;

    // Two stores on one page: the first takes the last frame for a copy of it, the second writes to that copy.
    memory.store_u8(Address::data(slots, 0x1004)?, 0x11)?;
    memory.store_u8(Address::data(slots, 0x1008)?, 0x22)?;

    // The pages that changed, and the account's data with them.
    let mut out = vec![0; change_list_len(8)];
    let changes = memory.change_list(&mut out)?;
    let mut data = account_data(&snapshot, slots).expect("the account was added").to_vec();
    changes.apply(slots, &mut data)?;
    assert_eq!((data[0x1004], data[0x1005], data[0x1008]), (0x11, 7, 0x22));
    Ok(())
}
