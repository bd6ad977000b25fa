use blockheap::{Address, MarkEntry, Memory, Refusal};

fn main() -> Result<(), Refusal> {
    let mut memory = Memory::<16>::new(); // t is 16: 64 blocks of 16 bytes
    let mut heap = memory.init(Address::from_word(4096))?;

    let buffer = heap.allocate(33)?.block;
    heap.object_mut(buffer)?[..3].copy_from_slice(b"tip");
    heap.allocate(100)?; // nothing leads to this one

    let root = heap.address_of(buffer)?;
    let collected = heap.collect(&[root], &mut [MarkEntry::EMPTY; 16])?;
    println!("kept {}, freed {} blocks", collected.kept, -collected.change);
    assert!(heap.object(buffer)?.starts_with(b"tip"));
    Ok(())
}
