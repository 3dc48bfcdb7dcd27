fn main() -> Result<(), ups::Refusal> {
    let mut numbers = [0; 4 * ups::RECORD]; // 2 by 2: c1 of (0, 0), else 0
    numbers[..3].copy_from_slice(&[600, 0, 120]);
    let net = ups::Net::new(2, 2, &numbers)?;
    let [x, y, z] = net.point(256, 256)?;
    println!("{x} {y} {z}");
    Ok(())
}
