"""What the tests of the calls share: nets and files, damage, exact solutions, the refusals, and how a call is emitted and its tests are tested."""
