fn main() -> Result<(), livevec::Refusal> {
    let mut prices = livevec::Vector::new()?;
    prices.extend_from_slice(&[300, 120, 500, 80])?;
    prices.write(0, 180)?;
    println!("{} {:?}", prices.sum(..)?, prices.least(..2)?);
    Ok(())
}
// prints: 880 Some(120)
