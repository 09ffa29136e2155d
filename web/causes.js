// What the lines of a ledger say of ticks: causes, reasons, and that they do not add up.
import { CAUSES } from './words.js';

// Where a tick can go, in the order of time: a stage, and what is waited for in it.
export const CAUSE_NAMES = CAUSES.map(([cause]) => cause);
export const REASONS = ['start', 'serial', 'store', 'level', 'forwarding', 'bus', 'prefetch', 'order'];
// Of the first row of a segment, in place of `start`.
export const SEGMENT_REASONS = { RUN: 'start', INTERRUPT: 'interrupt', MISSED: 'wrong_guess', CARD: 'card' };

// The lines are not those of a ledger, or do not add up.
export class Off extends Error {}
