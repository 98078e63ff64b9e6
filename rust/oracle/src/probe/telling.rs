// Stands behind the original's text in one module, so that private fields and
// constructors can be reached.
//
// A boxed section does not say its kind. The text reaches boxes by the prelude's
// name `Box`, and an item of the module comes before the prelude: the `Box`
// below is what the text boxes its sections in. It holds what the standard box
// would, behind a trait that can also tell the section's record, so the compiler
// itself keeps kinds and records together.

use crate::Record;

/// A section that can tell its record.
pub trait Tell: SectionHelper {
    fn tell(&self, record: &mut Record);
}

/// The box of the text: a pointer to the section and its table of methods.
pub struct Box<T: ?Sized>(std::boxed::Box<dyn Tell>, std::marker::PhantomData<T>);

impl Box<dyn SectionHelper> {
    pub fn new<K: Tell + 'static>(section: K) -> Self {
        Box(std::boxed::Box::new(section), std::marker::PhantomData)
    }

    fn record(&self) -> Record {
        let mut record = Record::empty();
        self.0.tell(&mut record);
        record
    }
}

impl std::ops::Deref for Box<dyn SectionHelper> {
    type Target = dyn SectionHelper;

    fn deref(&self) -> &(dyn SectionHelper + 'static) {
        &*self.0
    }
}

impl AsRef<dyn SectionHelper> for Box<dyn SectionHelper> {
    fn as_ref(&self) -> &(dyn SectionHelper + 'static) {
        &*self.0
    }
}

impl Tell for EverywhereConstantHelper {
    fn tell(&self, record: &mut Record) {
        record.put_other(1, false, &[self.value, self.prev_primitive, self.x_prev]);
    }
}

impl Tell for ConstantGradHelper {
    fn tell(&self, record: &mut Record) {
        let fields = [
            self.f_prev,
            self.prev_primitive,
            self.x_prev,
            self.f_grad,
            self.f_next,
        ];
        record.put_other(2, false, &fields);
    }
}

impl Tell for ConvexMonotone2Helper {
    fn tell(&self, record: &mut Record) {
        let fields = [
            self.x_prev,
            self.x_scaling,
            self.g_prev,
            self.g_next,
            self.f_average,
            self.eta2,
            self.prev_primitive,
        ];
        record.put_other(3, false, &fields);
    }
}

impl Tell for ConvexMonotone3Helper {
    fn tell(&self, record: &mut Record) {
        let fields = [
            self.x_prev,
            self.x_scaling,
            self.g_prev,
            self.g_next,
            self.f_average,
            self.eta3,
            self.prev_primitive,
        ];
        record.put_other(4, false, &fields);
    }
}

impl ConvexMonotone4Helper {
    fn fields(&self) -> [f64; 8] {
        [
            self.x_prev,
            self.x_scaling,
            self.g_prev,
            self.g_next,
            self.f_average,
            self.eta4,
            self.prev_primitive,
            self.a,
        ]
    }
}

impl Tell for ConvexMonotone4Helper {
    fn tell(&self, record: &mut Record) {
        record.put_other(5, false, &self.fields());
    }
}

impl Tell for ConvexMonotone4MinHelper {
    fn tell(&self, record: &mut Record) {
        let [
            x_prev,
            x_scaling,
            g_prev,
            g_next,
            f_average,
            eta4,
            prev_primitive,
            a,
        ] = self.base.fields();
        let fields = [
            x_prev,
            x_scaling,
            g_prev,
            g_next,
            f_average,
            eta4,
            prev_primitive,
            a,
            self.x_ratio,
            self.x2,
            self.x3,
        ];
        record.put_other(6, self.split_region, &fields);
    }
}

impl Tell for QuadraticHelper {
    fn tell(&self, record: &mut Record) {
        let fields = [
            self.x_prev,
            self.x_scaling,
            self.a,
            self.b,
            self.c,
            self.f_next,
            self.prev_primitive,
        ];
        record.put_quadratic(1, false, &fields);
    }
}

impl Tell for QuadraticMinHelper {
    fn tell(&self, record: &mut Record) {
        let fields = [
            self.x1,
            self.x2,
            self.x3,
            self.x4,
            self.a,
            self.b,
            self.c,
            self.primitive1,
            self.primitive2,
            self.f_next,
            self.x_scaling,
            self.x_ratio,
        ];
        record.put_quadratic(2, self.split_region, &fields);
    }
}

impl Tell for ComboHelper {
    fn tell(&self, record: &mut Record) {
        self.quadratic_helper.0.tell(record);
        self.conv_mono_helper.0.tell(record);
        record.slots[0] = self.quadraticity;
    }
}
