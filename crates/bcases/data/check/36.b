f() default: ;
