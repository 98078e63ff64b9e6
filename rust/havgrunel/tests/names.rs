//! Code that was written for the old module compiles with one `use` line changed, by its types and by its traits; and where it takes the default
//! settings it means the same once it names those for gas.

mod by_types {
    use havgrunel::{ConvexMonotone, ConvexMonotoneInterpolation};

    #[test]
    fn a_curve_is_built_and_asked() -> Result<(), Box<dyn std::error::Error>> {
        let (x, y) = (vec![0.0, 1.0, 2.0], vec![0.0, 1.0, 3.0]);
        let curve = ConvexMonotone::gas().interpolate(&x, &y)?;
        let same = ConvexMonotoneInterpolation::new(x.clone(), y.clone(), 0.3, 0.7, true)?;
        assert_eq!(curve.value(0.5)?, same.value(0.5)?);
        assert_eq!(curve.primitive(2.0)?, 4.0);
        assert!(curve.is_in_range(1.0) && curve.x_min() == 0.0 && curve.x_max() == 2.0);
        let grown = ConvexMonotone::gas().local_interpolate(&x, &y, 2, None, 3)?;
        assert_eq!(grown.value(1.5)?, curve.value(1.5)?);
        assert!(curve.with_extrapolation(true).allows_extrapolation());
        Ok(())
    }
}

mod by_traits {
    use havgrunel::{ConvexMonotone, Interpolation, Interpolator, LocalInterpolator};

    fn total<I: Interpolator>(method: &I, x: &[f64], y: &[f64]) -> f64 {
        assert!(I::GLOBAL && method.required_points() == 2);
        let curve = method.interpolate(x, y).expect("builds");
        assert!(curve.derivative(curve.x_min()).is_err());
        assert!(curve.is_in_range(curve.x_max()) && curve.value(curve.x_max()).is_ok());
        curve.primitive(curve.x_max()).expect("inside")
    }

    fn grown_total<I: LocalInterpolator>(method: &I, x: &[f64], y: &[f64]) -> f64 {
        let window = x.len() - 1;
        let curve = method.local_interpolate(x, y, window, None, x.len());
        curve.expect("builds").primitive(x[window]).expect("inside")
    }

    #[test]
    fn generic_code_takes_the_method() {
        let (x, y) = ([0.0, 1.0, 2.0], [0.0, 1.0, 3.0]);
        let method = ConvexMonotone::new(0.0, 1.0, false);
        assert_eq!(total(&method, &x, &y), 4.0);
        assert_eq!(grown_total(&method, &x, &y), 4.0);
        assert_eq!(
            <ConvexMonotone as LocalInterpolator>::DATA_SIZE_ADJUSTMENT,
            1
        );
    }
}
