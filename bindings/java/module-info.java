/** Objects that threads share without a lock, over the proved library. */
module fednayup.universal {
    exports fednayup.universal;
}
