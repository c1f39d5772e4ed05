//! Runs the kernel of examples/raise_words, on several threads too, makes its certificate, and tells what is refused.
use rvvbox::{attach, make, version, Argument, Kernel, Parameter, Scalars, Session};
use std::{fs, thread};

fn bytes_of(name: &str) -> Vec<u8> {
    fs::read(format!("{}/../../examples/raise_words/{name}", env!("CARGO_MANIFEST_DIR"))).unwrap()
}

fn crosses<T: Send + Sync>() {}

#[test]
fn runs() {
    crosses::<Kernel>();
    let mut kernel = Kernel::new(&bytes_of("raise_words.elf"), 128).unwrap();
    assert_eq!((version().0, kernel.vlen(), kernel.parameters().unwrap()[1].hi), (2, 128, 1024));
    assert_eq!(kernel.bound(&Scalars { a1: 1000, ..Scalars::default() }).unwrap(), 8002);
    let mut words = bytes_of("a.bin");
    assert_eq!(kernel.run(&mut [Argument::Buffer(&mut words), Argument::Scalar(1000)], 10_000).unwrap(), 2002);
    assert_eq!(words, bytes_of("expected.bin"));
}

#[test]
fn threads_run_kernels_of_their_own() {
    let mut kernel = Kernel::new(&bytes_of("raise_words.elf"), 128).unwrap();
    let threads: Vec<_> = (0..4)
        .map(|_| kernel.share().unwrap())
        .map(|mut own| {
            thread::spawn(move || {
                let mut words = bytes_of("a.bin");
                own.run(&mut [Argument::Buffer(&mut words), Argument::Scalar(1000)], 10_000).unwrap();
                words
            })
        })
        .collect();
    drop(kernel);
    for thread in threads {
        assert_eq!(thread.join().unwrap(), bytes_of("expected.bin"));
    }
}

#[test]
fn sessions_go_on() {
    crosses::<Session>();
    let mut kernel = Kernel::new(&bytes_of("raise_words.elf"), 128).unwrap();
    let mut words = bytes_of("a.bin");
    let mut session = kernel.open(&mut [Argument::Buffer(&mut words), Argument::Scalar(1000)], 10_000).unwrap();
    drop(kernel);
    assert_eq!((session.go_on(2001).unwrap().ended, words == bytes_of("a.bin")), (0, true));
    let mut session = thread::spawn(move || {
        let told = session.go_on(10).unwrap();
        assert_eq!((told.ended, told.steps), (1, 2002));
        session
    })
    .join()
    .unwrap();
    let at = session.registers().unwrap();
    assert_eq!((at.pc, at.x[0], at.ended, at.steps), (at.x[1], 0, 1, 2002));
    let mut seen = vec![0; words.len()];
    session.peek(0x4000_0000, &mut seen).unwrap();
    assert_eq!(session.peek(0x4000_0001, &mut seen).unwrap_err().name(), "BAD_RANGE");
    let (error, session) = session.close(&mut [Argument::Buffer(&mut words[4..])]).unwrap_err();
    assert_eq!((error.name(), error.refusal.place), ("WRONG_SIZE", 0));
    session.close(&mut [Argument::Buffer(&mut words)]).unwrap();
    assert_eq!((&words, &seen), (&bytes_of("expected.bin"), &words));
}

#[test]
fn sessions_are_opened_again() {
    let mut kernel = Kernel::new(&bytes_of("raise_words.elf"), 128).unwrap();
    let mut words = bytes_of("a.bin");
    let mut session = kernel.open(&mut [Argument::Buffer(&mut words), Argument::Scalar(1000)], 10_000).unwrap();
    for most in [0, 10_000] {
        session.go_on(most).unwrap();
        session.put_back(&mut [Argument::Buffer(&mut words)]).unwrap();
        assert_eq!(session.go_on(1).unwrap_err().name(), "NOTHING_KEPT");
        assert!(words == bytes_of(if most == 0 { "a.bin" } else { "expected.bin" }));
        let refused = kernel.open_again(&mut session, &mut [Argument::Buffer(&mut words), Argument::Scalar(1025)], 10_000);
        assert_eq!((refused.unwrap_err().refusal.place, session.go_on(1).unwrap_err().name()), (1, "NOTHING_KEPT"));
        kernel.open_again(&mut session, &mut [Argument::Buffer(&mut words), Argument::Scalar(1000)], 10_000).unwrap();
    }
}

/// The certificate of an image: behind the name of its note, whose padded length is 8.
fn certificate_in(image: &[u8]) -> &[u8] {
    let at = image.windows(6).position(|name| name == b"RVVBOX").unwrap();
    &image[at + 8..][..usize::from(u16::from_le_bytes([image[at - 8], image[at - 7]]))]
}

#[test]
fn makes_a_certificate() {
    let (image, bare) = (bytes_of("raise_words.elf"), bytes_of("bare.elf"));
    let made = make(&bare, 128, &[Parameter::buffer(4096), Parameter::scalar(0, 1024)]).unwrap();
    assert!(made == image);
    let mut kernel = Kernel::new(&made, 128).unwrap();
    let mut words = bytes_of("a.bin");
    assert_eq!(kernel.run(&mut [Argument::Buffer(&mut words), Argument::Scalar(1000)], 10_000).unwrap(), 2002);
    assert_eq!(words, bytes_of("expected.bin"));
    assert!(make(&bare, 128, &kernel.parameters().unwrap()).unwrap() == image);
    let error = make(&bare, 128, &[Parameter::buffer(4095), Parameter::scalar(0, 1024)]).unwrap_err();
    assert_eq!((error.to_string().as_str(), error.refusal.address), ("NOT_A_LOOP at 00010008", 0x10008));
    let error = make(&bare, 128, &[Parameter::buffer(4096), Parameter::scalar(1025, 1024)]).unwrap_err();
    assert_eq!((error.name(), error.refusal.place), ("BAD_PARAMETER", 1));
}

#[test]
fn attaches_a_certificate() {
    let (image, bare) = (bytes_of("raise_words.elf"), bytes_of("bare.elf"));
    assert!(attach(&bare, certificate_in(&image)).unwrap() == image);
    let error = attach(&image, certificate_in(&image)).unwrap_err();
    assert_eq!((error.name(), error.rule()), ("IMAGE", Some("CERTIFICATE_THERE")));
    let error = Kernel::new(&attach(&bare, &certificate_in(&image)[..99]).unwrap(), 128).unwrap_err();
    assert!(error.to_string().starts_with("CERTIFICATE, SHORT behind byte 99\n"));
}

#[test]
fn tells_what_is_refused() {
    let image = bytes_of("raise_words.elf");
    let error = Kernel::new(&image, 256).unwrap_err();
    assert_eq!((error.name(), error.rule()), ("CHECK", Some("WRONG_VLEN")));
    assert!(error.to_string().contains("wanted: VLEN 256"));
    assert_eq!(Kernel::new(&[], 128).unwrap_err().rule(), Some("TOO_SHORT"));
    let mut kernel = Kernel::new(&image, 128).unwrap();
    let mut words = bytes_of("a.bin");
    let error = kernel.run(&mut [Argument::Buffer(&mut words), Argument::Scalar(1025)], 10_000).unwrap_err();
    assert_eq!((error.name(), error.refusal.place), ("SCALAR_OUT_OF_INTERVAL", 1));
    let error = kernel.run(&mut [Argument::Read(&words), Argument::Scalar(1000)], 10).unwrap_err();
    assert_eq!((error.name(), error.refusal.bound.low), ("BOUND_TOO_LARGE", 8002));
    assert_eq!(words, bytes_of("a.bin"));
}
