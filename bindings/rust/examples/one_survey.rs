//! Four sites, one place located, the statement; and the report on a survey file.
use mubdrax::{Open, PointRecord, Reading, ReadingRecord, Refusal, Site, Statement, TetRecord, report};

/// The four sites as a file.
const FILE: [u32; 9] = [
    0x0641_9064, 0x4000_0020, 0x06E1_9064, 0x4000_0027, 0x0641_B864, 0x5000_00C8, 0x0641_906E, 0x6000_0000, 0xC000_0004,
];

fn main() -> Result<(), Refusal> {
    let mut points = vec![PointRecord::default(); 16];
    let mut readings = vec![ReadingRecord::default(); 16];
    let mut tets = vec![TetRecord::default(); 64];
    let sites = [
        Site::new(100, 100, 100, Reading::Measured(8.0)),
        Site::new(110, 100, 100, Reading::Measured(9.75)),
        Site::new(100, 110, 100, Reading::Below(50.0)),
        Site::new(100, 100, 110, Reading::Missing),
    ];

    let mut survey = Open::create(&mut points, &mut readings, &mut tets)?;
    for site in &sites {
        println!("site {}", survey.add(&mut points, &mut readings, &mut tets, site)?);
    }
    if let Err(refusal) = survey.add(&mut points, &mut readings, &mut tets, &sites[0]) {
        println!("refused {refusal}");
    }

    let sealed = survey.seal();
    println!("owner {}", sealed.locate(&points, &readings, &tets, [102, 102, 102])?);
    let mut statement = Statement::default();
    sealed.state(&points, &readings, &tets, &mut statement)?;
    println!("line 0: {:?}", statement.lines[0]);

    let file: Vec<u8> = FILE.iter().flat_map(|word| word.to_be_bytes()).collect();
    match report(&file) {
        Ok(text) => print!("{text}"),
        Err(none) => println!("{none:?}"),
    }
    Ok(())
}
