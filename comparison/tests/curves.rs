//! Tests of the curves, and of watts as the least of their limits.

use super::*;

#[test]
fn default_curves() {
    let settings = default_settings();
    let var = [
        (0, 4400), (9199, 4400), (9200, 4400), (9201, 4393), (9500, 2200), (9799, 8),
        (9800, 0), (10000, 0), (10200, 0), (10201, -7), (10500, -2200), (10799, -4392),
        (10800, -4400), (20236, -4400),
    ];
    for (voltage, vars) in var {
        assert_eq!(curve(&settings.var, voltage), vars, "at {}", voltage);
    }
    let watt = [(0, 10000), (10600, 10000), (10601, 9980), (10800, 6000), (10999, 2020),
        (11000, 2000), (20236, 2000)];
    for (voltage, watts) in watt {
        assert_eq!(curve(&settings.watt, voltage), watts, "at {}", voltage);
    }
}

#[test]
fn rising_quotients_are_cut_toward_zero_too() {
    let points = [Point { voltage: 7000, power: -10000 }, Point { voltage: 7003, power: 10000 }];
    assert_eq!(curve(&points, 7001), -10000 + 6666);
    assert_eq!(curve(&points, 7002), -10000 + 13333);
}

#[test]
fn watts_beside_vars() {
    let values = [(4400, 8979), (-4400, 8979), (10000, 0), (-10000, 0), (0, 10000), (6000, 8000)];
    for (vars, watts) in values {
        assert_eq!(watts_beside(vars), watts);
    }
    for vars in -10000..=10000 {
        let p = watts_beside(vars);
        assert!(p * p + vars * vars <= 100_000_000);
        assert!((p + 1) * (p + 1) + vars * vars > 100_000_000);
    }
}

#[test]
fn watts_are_the_least_of_six() {
    let settings = quick_settings();
    let watts = |ramp: u32, sample: [u32; 7]| {
        let report = step(&mut in_service(ramp), &settings, &sample).unwrap();
        (report.watts, report.vars)
    };
    assert_eq!(watts(100, NORMAL), (10000, 0));
    assert_eq!(watts(100, [1000, 1000, 1000, 60000, 1, 7000, 8000]), (7000, 0));
    assert_eq!(watts(100, [1000, 1000, 1000, 60000, 1, 8000, 6000]), (6000, 0));
    assert_eq!(watts(29, NORMAL), (3000, 0));
    // 1180: 10862; the watt curve's 10000 - 8000 * 262 / 400 = 4760.
    assert_eq!(watts(100, [1180, 1180, 1180, 60000, 1, 10000, 10000]), (4760, -4400));
    // 841: 9170; vars 4400 leave 8979.
    assert_eq!(watts(100, [841, 841, 841, 60000, 1, 10000, 10000]), (8979, 4400));
    // The recovery count, beside each of the others.
    let watts = |ramp: u32, recovery: u8, sample: [u32; 7]| {
        let mut board = Board { recovery, ..in_service(ramp) };
        let report = step(&mut board, &settings, &sample).unwrap();
        (report.watts, report.vars)
    };
    assert_eq!(watts(100, 0, NORMAL), (250, 0));
    assert_eq!(watts(100, 27, [1000, 1000, 1000, 60000, 1, 7001, 10000]), (7000, 0));
    assert_eq!(watts(100, 27, [1000, 1000, 1000, 60000, 1, 6999, 10000]), (6999, 0));
    assert_eq!(watts(100, 27, [1000, 1000, 1000, 60000, 1, 10000, 7001]), (7000, 0));
    assert_eq!(watts(100, 27, [1000, 1000, 1000, 60000, 1, 10000, 6999]), (6999, 0));
    assert_eq!(watts(29, 10, NORMAL), (2750, 0));
    assert_eq!(watts(29, 11, NORMAL), (3000, 0));
    assert_eq!(watts(29, 12, NORMAL), (3000, 0));
    assert_eq!(watts(100, 18, [1180, 1180, 1180, 60000, 1, 10000, 10000]), (4750, -4400));
    assert_eq!(watts(100, 19, [1180, 1180, 1180, 60000, 1, 10000, 10000]), (4760, -4400));
    assert_eq!(watts(100, 34, [841, 841, 841, 60000, 1, 10000, 10000]), (8750, 4400));
    assert_eq!(watts(100, 35, [841, 841, 841, 60000, 1, 10000, 10000]), (8979, 4400));
}

#[test]
fn curves_use_the_mean_rounded_down() {
    // 9170 + 9170 + 10000 = 28340, a third of which is 9446.67.
    let sample = [841, 841, 1000, 60000, 1, 10000, 10000];
    let report = step(&mut in_service(100), &quick_settings(), &sample).unwrap();
    assert_eq!(i64::from(report.vars), curve(&quick_settings().var, 9446));
    assert_eq!(report.vars, 4400 - 1804);
}
