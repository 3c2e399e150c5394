//! The examples of the Rust's doc comments that lie in document 01's domain, 01's own, and some of document 02's requests.
//! A `Signal` of 1,000 samples, as the Rust's comments have it, is off the grid here: it is refused, and the example runs on 1,024.

use tilljingle::*;

#[test]
fn a_thousand_samples_are_off_the_grid() {
    let mut samples = [3.0; 1000];
    assert!(matches!(
        Signal::new(Wave::DC, 5.0, 0.0, Edition::First, &mut samples),
        Err(Refusal::OffGrid)
    ));
    assert_eq!(samples, [3.0; 1000]);
}

#[test]
fn direct_current() {
    let mut samples = [0.0; 1024];
    let signal = Signal::new(Wave::DC, 5.0, 0.0, Edition::First, &mut samples).unwrap();
    let metrics = signal.get_metrics().figures;
    assert_eq!(metrics.max, 5.0);
    assert_eq!(metrics.min, 5.0);
    assert_eq!(metrics.average, 5.0);
    assert_eq!(metrics.dc_rms, 5.0);
    assert_eq!(signal.get_samples().len(), 1024);
}

#[test]
fn pulses_of_a_quarter() {
    let mut samples = [0.0; 1024];
    let mut signal = Signal::new(Wave::PWM, 5.0, 1000.0, Edition::First, &mut samples).unwrap();
    assert_eq!(signal.settings().wave(), Wave::PWM);
    signal.set_duty_cycle(0.25).unwrap();
    let metrics = signal.get_metrics().figures;
    assert!((metrics.duty_cycle_pos - 0.25).abs() < 0.01);
    assert!((metrics.average - 1.25).abs() < 0.1);
}

#[test]
fn frequency_of_a_sine() {
    let samples: Vec<f32> = (0..1000)
        .map(|i| (2.0 * std::f32::consts::PI * 5.0 * i as f32 / 1000.0).sin())
        .collect();
    assert!((measure_frequency(&samples, 1000.0).unwrap() - 5.0).abs() < 0.5);
}

#[test]
fn power_of_the_fundamental() {
    let (voltage, lagging) = ([1.0, 0.0, -1.0, 0.0], [0.0, 1.0, 0.0, -1.0]);
    let is = |active, reactive| Ok(Fundamental { active, reactive });
    assert_eq!(fundamental_power(&voltage, &lagging, 1), is(0.0, 0.5));
    assert_eq!(fundamental_power(&lagging, &voltage, 1), is(0.0, -0.5));
    assert_eq!(fundamental_power(&voltage, &voltage, 1), is(0.5, 0.0));
    let long = vec![1.0; 65_537];
    for (nv, ni, bin, refusal) in [
        (65_537, 4, 0, Refusal::TooLong),
        (4, 3, 0, Refusal::LengthsDiffer),
        (3, 3, 0, Refusal::OffGrid),
        (8192, 8192, 1, Refusal::OffGrid),
        (4, 4, 0, Refusal::BinOutside),
        (4, 4, 2, Refusal::BinOutside),
        (2, 2, 1, Refusal::BinOutside),
        (0, 0, 1, Refusal::BinOutside),
    ] {
        assert_eq!(fundamental_power(&long[..nv], &long[..ni], bin), Err(refusal));
    }
}

#[test]
fn a_capture_there_and_back() {
    let (volts, amps) = ([100, -32768, 7], [-1, 32767, 0]);
    let mut text = [0; 64];
    let bytes = write_capture(&volts, &amps, 65535, &mut text).unwrap();
    let (mut v, mut a) = ([0; 3], [0; 3]);
    assert_eq!(read_capture(&text[..bytes], &mut v, &mut a), Ok(3));
    assert_eq!((v, a), (volts, amps));
    assert_eq!(
        read_capture(&text[..bytes], &mut v[..2], &mut a),
        Err(BadCapture {
            refusal: Refusal::OutputShort,
            line: 0
        })
    );
}

#[test]
fn the_report() {
    let mut text = [0; 128];
    let bytes = report_text(b"00010200640032FF9CFFCEFF\n", &mut text).unwrap();
    assert_eq!(
        &text[..bytes],
        b"PAIRS 2\nP 459C4000\nQ 00000000\nS 459C4000\nPF 3F800000\n"
    );
    assert_eq!(report_text(b"", &mut text[..8]), Err(Refusal::OutputShort));
}

#[test]
fn port_readings() {
    let mut samples = [0.0; 16];
    let mut signal = Signal::new_power_port(230.0, 10.0, Some(50.0), Edition::Second, &mut samples).unwrap();
    assert_eq!(signal.port().instantaneous_power(), 2300.0);
    assert_eq!(Option::<f32>::from(signal.port().frequency), Some(50.0));
    signal.port_mut().set_voltage_harmonic(3, Some(1.5));
    signal.port_mut().set_voltage_harmonic(16, Some(9.0));
    assert_eq!(signal.port().voltage_harmonic(3), Some(1.5));
    assert_eq!(signal.port().voltage_harmonic(16), None);
    assert_eq!(signal.port().current_harmonic(3), None);
    signal.port_mut().set_voltage_harmonic(3, None);
    assert_eq!(signal.port().voltage_harmonic(3), None);
}

#[test]
fn a_nan_and_too_many_samples() {
    let blown = f32::from_bits(u32::MAX);
    let power = compute_power(&[blown], &[1.0], 1.0).unwrap();
    assert!(power.p.is_nan() && power.s.is_nan());
    assert_eq!((power.nonactive, power.pf), (0.0, 0.0));
    let mut samples = vec![1.0; 65_537];
    assert_eq!(scale(&mut samples, 2.0), Err(Refusal::TooLong));
    assert!(samples.iter().all(|&x| x == 1.0));
}

/// NaN, quiet and signalling, of either sign.
const NOT_NUMBERS: [u32; 4] = [0x7FC0_0000, 0x7F80_0001, 0xFFFF_FFFF, 0xFF80_0001];

#[test]
fn samples_that_are_no_numbers_are_counted() {
    let earlier = TimeFigures {
        max: 5.0,
        not_numbers: u32::MAX,
        infinite: 7,
        ..TimeFigures::default()
    };
    let measured = |samples: &[f32]| calculate_time_figures(Wave::PWM, 1.0, 0.0, earlier, samples);
    let counts = |samples: &[f32]| measured(samples).map(|figures| (figures.not_numbers, figures.infinite));
    let mut samples = NOT_NUMBERS.map(f32::from_bits).to_vec();
    assert_eq!(counts(&samples), Ok((4, 0)));
    samples.extend([f32::INFINITY, 1.0, f32::NEG_INFINITY, f32::MAX, f32::MIN]);
    assert_eq!(counts(&samples), Ok((4, 2)));
    assert_eq!(counts(&[f32::MAX, 0.0]), Ok((0, 0)));
    assert_eq!(measured(&[]), Ok(earlier));
    let blown = vec![f32::from_bits(0xFF80_0001); 65_537];
    assert_eq!(counts(&blown[1..]), Ok((65_536, 0)));
    assert_eq!(measured(&blown), Err(Refusal::TooLong));
}

#[test]
fn a_signal_counts_from_call_to_call() {
    let mut samples = [0.0; 16];
    let mut signal = Signal::new(Wave::PWM, f32::INFINITY, 4.0, Edition::First, &mut samples).unwrap();
    let counts = |signal: &Signal| {
        let figures = signal.get_metrics().figures;
        (figures.not_numbers, figures.infinite)
    };
    assert_eq!(counts(&signal), (0, 8));
    signal.set_duty_cycle(0.25).unwrap();
    assert_eq!(counts(&signal), (0, 4));
    signal.reset_waveform().unwrap();
    assert_eq!(counts(&signal), (0, 0));
    // at frequency 0 a triangular wave is NaN throughout
    let blown = Signal::new(Wave::Triangular, 1.0, 0.0, Edition::Second, &mut samples).unwrap();
    assert_eq!(counts(&blown), (16, 0));
}

/// One sample of n / 2 and else 0, which makes every bin 1: THD is 100 times the root of how many orders lie below half, and none above the edition's.
fn pulse(frequency: f32, edition: Edition, samples: &mut [f32]) -> Metrics {
    let n = samples.len() as f32;
    let mut signal = Signal::new(Wave::PWM, n / 2.0, frequency, edition, samples).unwrap();
    signal.set_duty_cycle(0.5 / n).unwrap();
    signal.get_metrics()
}

#[test]
fn orders_up_to_16_and_up_to_40() {
    // of these odd bins: how many orders from 2 on have each edition
    for (n, frequency, first, second) in [
        (64, 1.0, 15, 30),
        (64, 3.0, 9, 9),
        (256, 3.0, 15, 39),
        (1024, 13.0, 15, 38),
        (1024, 29.0, 15, 16),
        (1024, 31.0, 15, 15),
        (4096, 1.0, 15, 39),
    ] {
        let mut samples = vec![0.0; n];
        let thd = |orders: u16| f32::from(orders).sqrt() * 100.0;
        let metrics = pulse(frequency, Edition::First, &mut samples);
        assert_eq!((metrics.edition, metrics.thd), (1, thd(first)));
        let metrics = pulse(frequency, Edition::Second, &mut samples);
        assert_eq!((metrics.edition, metrics.thd), (2, thd(second)));
    }
}

#[test]
fn the_edition_stays() {
    for edition in [Edition::First, Edition::Second] {
        let mut samples = [0.0; 64];
        let mut signal = Signal::new(Wave::Sawtooth, 1.0, 1.0, edition, &mut samples).unwrap();
        let stays = |signal: &Signal| {
            assert_eq!(signal.settings().edition(), Some(edition));
            assert_eq!(signal.get_metrics().edition, edition as u8);
        };
        stays(&signal);
        signal.set_phase(90.0).unwrap();
        stays(&signal);
        signal.set_duty_cycle(0.25).unwrap();
        stays(&signal);
        signal.port_mut().reset_power_params();
        signal.reset_waveform().unwrap();
        stays(&signal);
        signal.set_phase(0.0).unwrap();
        stays(&signal);
        stays(&Signal::new_power_port(230.0, 10.0, None, edition, &mut samples).unwrap());
    }
}

#[test]
fn an_edition_that_is_neither() {
    let mut samples = [3.0; 65_537];
    let place = samples.as_mut_ptr();
    let absent = Reading::from(None);
    // 9 comes before 3 and 4
    for (edition, n) in [(0, 8), (3, 65_537), (255, 7), (3, 0)] {
        let held = Settings {
            edition,
            thd: 7.0,
            ..Settings::default()
        };
        let (new, port, phase, duty, reset) = unsafe {
            (
                raw::tj_signal_new(1, 2.0, 1.0, edition, place, n),
                raw::tj_signal_new_power_port(2.0, 1.0, absent, edition, place, n),
                raw::tj_signal_set_phase(held, 90.0, place, n),
                raw::tj_signal_set_duty_cycle(held, 0.25, place, n),
                raw::tj_signal_reset_waveform(held, place, 0),
            )
        };
        for (answer, signal) in [
            (new, Settings::default()),
            (port, Settings::default()),
            (phase, held),
            (duty, held),
        ] {
            assert_eq!((answer.code, answer.signal), (Refusal::UnknownEdition as u8, signal));
        }
        assert_eq!((reset.code, reset.signal.edition, reset.signal.thd), (0, edition, 0.0));
        assert_eq!(held.edition(), None);
    }
    assert!(samples.iter().all(|&x| x == 3.0));
}

#[test]
fn the_edition_stands_behind_the_wave() {
    let settings = Settings::default();
    let at = |field: &u8| field as *const u8 as usize - &settings as *const Settings as usize;
    assert_eq!((at(&settings.wave), at(&settings.edition)), (0, 1));
    assert_eq!(std::mem::size_of::<Settings>(), 528);
}
