#!/usr/bin/env python3
"""The method of careful.py without one condition: a press moves as soon as a plate is in it, also while the arm that
brought the plate is still out. It breaks the rule that no arm may be in a moving press, and with --explain the run says
where first:

    ArmInPress in round 29: on,press_one,top,
"""
import careful

careful.may_press = lambda station: True
careful.main()
