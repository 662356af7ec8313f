#import "Small.h"
/** Chapter of the file. */
@implementation Small
- (id) tell: (id)word { return word; }
- (int) twice: (int)aNumber { return 2 * aNumber; }
+ (Small*) small { return NSLocalizedString(@"A word", @"a comment"); }
@end
